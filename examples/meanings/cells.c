int f(int n) { int a[65535]; a[0] = n; return n == 0 ? 0 : f(n - 1); }
int main(void) { return f(15); }
/* 16 arrays live at once, of 1,048,560 cells. */
