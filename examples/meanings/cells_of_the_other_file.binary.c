int f(int n) {
  int first, *q = &first;
  int a[65535];
  a[n] = n;
  return n == 0 ? a[0] : f(n - 1);
}
