/* What is narrower than int is computed as int, so these sums and products do not wrap. */
void digits(int n) {
  if (n <= -10) digits(n / 10);
  putchar('0' - n % 10);
}
void print(int n) {
  if (n < 0) putchar('-');
  digits(n < 0 ? n : -n);
  putchar(' ');
}
int main(void) {
  char a = 100, b = 100;
  print(a + b);
  print(a * b);
  unsigned char c = 255;
  print(c + 1);
  print(c << 8);
  print(-c);
  short s = 32767;
  print(s + 1);
  print(s * s);
  unsigned short u = 65535;
  print(u + u);
  print(u - 65536);
  _Bool t = 1;
  print(t + t);
  print(t << 4);
  print('a' + 1);
  signed char d = -128;
  print(-d);
  print(d * d);
  return 0;
}
