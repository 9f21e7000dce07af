/* Casts, one in another and beside operators. */
void digits(int n) {
  if (n <= -10) digits(n / 10);
  putchar('0' - n % 10);
}
void print(int n) {
  if (n < 0) putchar('-');
  digits(n < 0 ? n : -n);
  putchar(' ');
}
void unsigned_digits(unsigned n) {
  if (n >= 10) unsigned_digits(n / 10);
  putchar('0' + n % 10);
}
void print_unsigned(unsigned n) {
  unsigned_digits(n);
  putchar(' ');
}
int main(void) {
  int x = 300;
  print((char)x);
  print((unsigned char)-1);
  print((_Bool)256);
  print((_Bool)(char)256);
  print((int)4294967295u);
  print((int)2147483648u);
  print((short)70000);
  print((signed char)200);
  print((int)(char)(unsigned char)200);
  print((unsigned short)-1);
  print((unsigned char)x + 1);
  print((char)200 < 0);
  print((int)'\377');
  print(-(unsigned char)1);
  (void)x;
  print_unsigned((unsigned)-1);
  print_unsigned((unsigned)(char)128);
  print_unsigned((unsigned)-1 / 2);
  return 0;
}
