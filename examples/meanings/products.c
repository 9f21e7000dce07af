/* Products up to the edges of their types; those of unsigned numbers wrap. */
void digits(int n) {
  if (n <= -10) digits(n / 10);
  putchar('0' - n % 10);
}
void print(int n) {
  if (n < 0) putchar('-');
  digits(n < 0 ? n : -n);
  putchar(' ');
}
void unsigned_digits(unsigned n) {
  if (n >= 10) unsigned_digits(n / 10);
  putchar('0' + n % 10);
}
void print_unsigned(unsigned n) {
  unsigned_digits(n);
  putchar(' ');
}
int main(void) {
  int a = 46340, b = -65536, c = 7;
  print(a * a);
  print(b * 32768);
  print(-1 * 2147483647);
  print(c * -3);
  print(b * 0);
  unsigned u = 65536u, all = 4294967295u;
  print_unsigned(u * u);
  print_unsigned(all * all);
  print_unsigned(3u * 2863311531u);
  print_unsigned(all * 2);
  return 0;
}
