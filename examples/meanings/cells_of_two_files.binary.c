int g(int n, int *p);
int f(int n, int *p) {
  int a[65535];
  a[n] = *p + n;
  return n == 0 ? a[0] : g(n - 1, &a[n]);
}
