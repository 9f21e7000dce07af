/* A compound assignment computes at the common type, and converts the result back. */
void digits(int n) {
  if (n <= -10) digits(n / 10);
  putchar('0' - n % 10);
}
void print(int n) {
  if (n < 0) putchar('-');
  digits(n < 0 ? n : -n);
  putchar(' ');
}
void unsigned_digits(unsigned n) {
  if (n >= 10) unsigned_digits(n / 10);
  putchar('0' + n % 10);
}
void print_unsigned(unsigned n) {
  unsigned_digits(n);
  putchar(' ');
}
int main(void) {
  char c = 127;
  print(c += 1);
  print(c -= 1);
  c = 64;
  print(c <<= 1);
  print(c >>= 3);
  unsigned char u = 200;
  print(u += 100);
  print(u *= 6);
  print(u <<= 5);
  u = 3;
  print(u = -u);
  short s = 32767;
  print(s += s);
  print(s *= 16384);
  int i = -1;
  print(i += 1u);
  i = -8;
  print(i /= 2u);
  i = -8;
  print(i >>= 1u);
  i = 7;
  print(i *= -1);
  i = -1;
  print(i %= 10u);
  _Bool b = 0;
  print(b += 5);
  print(b *= 0);
  print(b |= 6);
  print(b <<= 3);
  print(b ^= 1);
  unsigned n = 1;
  print_unsigned(n -= 2);
  print_unsigned(n >>= 28);
  return 0;
}
