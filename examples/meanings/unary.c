/* The operators of one operand. */
void digits(int n) {
  if (n <= -10) digits(n / 10);
  putchar('0' - n % 10);
}
void print(int n) {
  if (n < 0) putchar('-');
  digits(n < 0 ? n : -n);
  putchar(' ');
}
void unsigned_digits(unsigned n) {
  if (n >= 10) unsigned_digits(n / 10);
  putchar('0' + n % 10);
}
void print_unsigned(unsigned n) {
  unsigned_digits(n);
  putchar(' ');
}
int f(void) { return 1; }
int main(void) {
  int x = 5;
  char c = -3;
  unsigned char u = 200;
  _Bool b = 1;
  int *none = NULL, *some = &x;
  int (*g)(void) = NULL, (*h)(void) = f;
  print(-x);
  print(- -x);
  print(+c);
  print(-u);
  print(~x);
  print(~b);
  print(-b);
  print(!x);
  print(!0);
  print(!!x);
  print(!-1);
  print(!none);
  print(!some);
  print(!g);
  print(!h);
  print(!f);
  print(-2147483647);
  print_unsigned(-1u);
  print_unsigned(-(unsigned)x);
  print_unsigned(+4294967295u);
  return 0;
}
