/* The operators on bits. */
void digits(int n) {
  if (n <= -10) digits(n / 10);
  putchar('0' - n % 10);
}
void print(int n) {
  if (n < 0) putchar('-');
  digits(n < 0 ? n : -n);
  putchar(' ');
}
void unsigned_digits(unsigned n) {
  if (n >= 10) unsigned_digits(n / 10);
  putchar('0' + n % 10);
}
void print_unsigned(unsigned n) {
  unsigned_digits(n);
  putchar(' ');
}
int main(void) {
  int a = 12, b = 10, m = -1;
  print(a & b);
  print(a | b);
  print(a ^ b);
  print(m & 255);
  print(m ^ m);
  print(-256 | 1);
  print(~0);
  print(~a);
  print(~2147483647);
  unsigned char c = 0xf0;
  print(c & ~0x10);
  print(~c);
  print(a & 6 | 1 ^ 3);
  print_unsigned(~0u);
  print_unsigned(m & 4294967295u);
  print_unsigned(m ^ 1u);
  return 0;
}
