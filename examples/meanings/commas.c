/* The value of a comma is that of its last part; all are evaluated, in order. */
void digits(int n) {
  if (n <= -10) digits(n / 10);
  putchar('0' - n % 10);
}
void print(int n) {
  if (n < 0) putchar('-');
  digits(n < 0 ? n : -n);
  putchar(' ');
}
int t(int v) { putchar('a' + v); return v; }
int two(int a, int b) { return 10 * a + b; }
int main(void) {
  print((t(0), t(1), t(2)));
  int x = 1;
  print((x = 5, x + 1));
  print(two((x++, x), 7));
  int i, j;
  for (i = 0, j = 10; i < j; i += 3, j--) putchar('.');
  print(i);
  print(j);
  int a[] = {(1, 2), 3};
  print(a[0]);
  (void)0, t(4);
  return 0;
}
