/* putchar writes a byte modulo 256, and has that byte as its value. */
void digits(int n) {
  if (n <= -10) digits(n / 10);
  putchar('0' - n % 10);
}
void print(int n) {
  if (n < 0) putchar('-');
  digits(n < 0 ? n : -n);
  putchar(' ');
}
int main(void) {
  print(putchar(65));
  print(putchar(256 + 66));
  print(putchar(-190));
  print(putchar('\xc3') == 0xc3);
  putchar(putchar(putchar('x') + 1) + 1);
  return 0;
}
