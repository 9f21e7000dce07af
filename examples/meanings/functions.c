/* Calls in calls, parameters as objects, and functions that call one another. */
void digits(int n) {
  if (n <= -10) digits(n / 10);
  putchar('0' - n % 10);
}
void print(int n) {
  if (n < 0) putchar('-');
  digits(n < 0 ? n : -n);
  putchar(' ');
}
int odd(int n);
int even(int n) { return n == 0 ? 1 : odd(n - 1); }
int odd(int n) { return n == 0 ? 0 : even(n - 1); }
int gcd(int a, int b) { return b ? gcd(b, a % b) : a; }
int ackermann(int m, int n) { return m == 0 ? n + 1 : n == 0 ? ackermann(m - 1, 1) : ackermann(m - 1, ackermann(m, n - 1)); }
int changed(int n) { int *p = &n; while (*p < 10) *p *= 2; return n; }
int sixteen(int a, int b, int c, int d, int e, int f, int g, int h, int i, int j, int k, int l, int m, int n, int o, char p) {
  return a + 2 * b + 3 * c + 4 * d + 5 * e + 6 * f + 7 * g + 8 * h + 9 * i + 10 * j + 11 * k + 12 * l + 13 * m + 14 * n + 15 * o + 16 * p;
}
int last(int a[2], int n) { return a[n]; }
int main(void) {
  int local(int);
  print(even(10));
  print(odd(10));
  print(gcd(1071, 462));
  print(ackermann(2, 3));
  int x = 3;
  print(changed(x));
  print(x);
  print(sixteen(1, 1, 1, 1, 1, 1, 1, 1, 1, 1, 1, 1, 1, 1, 1, 257));
  print(local(local(2)));
  int a[2] = {4, 5};
  print(last(a, 1));
  print((local)(5));
  return 0;
}
int local(int n) { return n * n; }
