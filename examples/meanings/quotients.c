/* Division goes toward zero, and the remainder has the sign of the dividend. */
void digits(int n) {
  if (n <= -10) digits(n / 10);
  putchar('0' - n % 10);
}
void print(int n) {
  if (n < 0) putchar('-');
  digits(n < 0 ? n : -n);
  putchar(' ');
}
void unsigned_digits(unsigned n) {
  if (n >= 10) unsigned_digits(n / 10);
  putchar('0' + n % 10);
}
void print_unsigned(unsigned n) {
  unsigned_digits(n);
  putchar(' ');
}
int main(void) {
  int p = 7, q = 2, r = 3, least = -2147483647 - 1;
  print(p / q);
  print(-p / q);
  print(p / -q);
  print(-p / -q);
  print(p % r);
  print(-p % r);
  print(p % -r);
  print(-p % -r);
  print(least / 1);
  print(least / q);
  print(least % q);
  print(least / least);
  print(2147483647 / -1);
  print(least % 10);
  unsigned all = 4294967295u;
  print_unsigned(all / 2u);
  print_unsigned(all % 10u);
  print_unsigned(-p / 2u);
  print_unsigned(-p % 2u);
  return 0;
}
