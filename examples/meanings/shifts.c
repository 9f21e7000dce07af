/* Shifts: the result has the type of what is shifted, and a negative number keeps its sign to the right. */
void digits(int n) {
  if (n <= -10) digits(n / 10);
  putchar('0' - n % 10);
}
void print(int n) {
  if (n < 0) putchar('-');
  digits(n < 0 ? n : -n);
  putchar(' ');
}
void unsigned_digits(unsigned n) {
  if (n >= 10) unsigned_digits(n / 10);
  putchar('0' + n % 10);
}
void print_unsigned(unsigned n) {
  unsigned_digits(n);
  putchar(' ');
}
int main(void) {
  int one = 1, none = 0, least = -2147483647 - 1;
  print(one << 30);
  print(none << 31);
  print(one << 0);
  print(2147483647 << none);
  print(-8 >> 1);
  print(-1 >> 31);
  print(-7 >> 1);
  print(2147483647 >> 30);
  print(least >> 31);
  print(least >> none);
  print(-1 < (one << 3u));
  unsigned char c = 200;
  print(c << 1);
  print(c >> 3);
  print_unsigned(1u << 31);
  print_unsigned(3u << 31);
  print_unsigned(4294967295u << 4);
  print_unsigned(4294967288u >> 1);
  print_unsigned(2147483648u >> 31);
  return 0;
}
