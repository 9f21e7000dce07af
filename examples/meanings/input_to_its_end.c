/* getchar gives each byte once, and then EOF as often as it is asked. */
void digits(int n) {
  if (n <= -10) digits(n / 10);
  putchar('0' - n % 10);
}
void print(int n) {
  if (n < 0) putchar('-');
  digits(n < 0 ? n : -n);
  putchar(' ');
}
int main(void) {
  print(getchar());
  print(getchar());
  print(getchar() == getchar());
  int c, n = 0;
  while ((c = getchar()) >= 0) n += c;
  print(n);
  print(c);
  print(getchar());
  print(getchar() == EOF);
  return 0;
}
