int *local(void) { int y = 1; return &y; }
int read(int *p) { return *p; }
