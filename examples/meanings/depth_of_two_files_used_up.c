int g(int n);
int f(int n) { return n == 0 ? 0 : g(n - 1); }
int main(void) { return f(1998); }
