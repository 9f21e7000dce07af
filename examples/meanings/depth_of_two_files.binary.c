int f(int n);
int g(int n) { return n == 0 ? 0 : f(n - 1); }
