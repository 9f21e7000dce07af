/* Each file has cells of its own. */
int f(int n, int *p);
int g(int n, int *p) {
  int a[65535];
  a[n] = *p + n;
  return n == 0 ? a[0] : f(n - 1, &a[n]);
}
int main(void) {
  int x = 1, r = g(30, &x);
  putchar('0' + r % 10);
  putchar('0' + r / 10 % 10);
  putchar('0' + r / 100);
  return 0;
}
