void f(void) { exit(-2); }
int main(void) { (1 ? f : NULL)(); return 1; }
