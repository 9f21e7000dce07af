/* ?: evaluates one of its branches, at the common type. */
void digits(int n) {
  if (n <= -10) digits(n / 10);
  putchar('0' - n % 10);
}
void print(int n) {
  if (n < 0) putchar('-');
  digits(n < 0 ? n : -n);
  putchar(' ');
}
int t(int v) { putchar('a' + v); return v; }
void yes(void) { putchar('y'); }
void no(void) { putchar('n'); }
int main(void) {
  print(t(1) ? t(2) : t(3));
  print(t(0) ? t(2) : t(3));
  print(0 ? 1 : 0 ? 2 : 3);
  print(1 ? 0 ? 4 : 5 : 6);
  print((1 ? -1 : 0u) > 0);
  int zero = 0, x = 7, *p = &x, *none = NULL;
  print(zero ? 1 / zero : 8);
  print(*(p ? p : none));
  print(*(none ? none : p));
  print((x ? p : NULL) == p);
  print((zero ? p : NULL) == NULL);
  x ? yes() : no();
  zero ? yes() : no();
  char c = 'c';
  unsigned char u = 200;
  print(sizeof(x ? c : c) == sizeof(int));
  print(x ? u : c);
  int a[2] = {1, 2};
  (x ? a : none)[1] = 9;
  print(a[1]);
  x = zero ? x = 1 : 2;
  print(x);
  return 0;
}
