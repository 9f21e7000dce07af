/* Sums and differences up to the edges of their types. */
void digits(int n) {
  if (n <= -10) digits(n / 10);
  putchar('0' - n % 10);
}
void print(int n) {
  if (n < 0) putchar('-');
  digits(n < 0 ? n : -n);
  putchar(' ');
}
void unsigned_digits(unsigned n) {
  if (n >= 10) unsigned_digits(n / 10);
  putchar('0' + n % 10);
}
void print_unsigned(unsigned n) {
  unsigned_digits(n);
  putchar(' ');
}
int main(void) {
  int most = 2147483647, least = -2147483647 - 1;
  print(most - 1 + 1);
  print(least + 1);
  print(most + least);
  print(-1 - most);
  print(0 - most);
  print(least - least);
  unsigned all = 4294967295u;
  print_unsigned(all + 1u);
  print_unsigned(0u - 1u);
  print_unsigned(all + all);
  print_unsigned(5u - all);
  return 0;
}
