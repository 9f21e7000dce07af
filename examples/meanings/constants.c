/* Numbers in each base, and the types that they have. */
void digits(int n) {
  if (n <= -10) digits(n / 10);
  putchar('0' - n % 10);
}
void print(int n) {
  if (n < 0) putchar('-');
  digits(n < 0 ? n : -n);
  putchar(' ');
}
void unsigned_digits(unsigned n) {
  if (n >= 10) unsigned_digits(n / 10);
  putchar('0' + n % 10);
}
void print_unsigned(unsigned n) {
  unsigned_digits(n);
  putchar(' ');
}
int main(void) {
  print(010);
  print(0x1F);
  print(0XfU);
  print(0);
  print(00);
  print(2147483647);
  print(017777777777);
  print(-1 < 0x7fffffff);
  print(-1 < 0x80000000);
  print(-1 < 1u);
  print(EOF);
  print(NULL == 0);
  print_unsigned(0xffffffff);
  print_unsigned(037777777777);
  print_unsigned(4294967295u);
  return 0;
}
