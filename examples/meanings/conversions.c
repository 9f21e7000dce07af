/* Numbers at the edges, converted to each narrow type: modulo its width, and to _Bool by being other than 0. */
void digits(int n) {
  if (n <= -10) digits(n / 10);
  putchar('0' - n % 10);
}
void print(int n) {
  if (n < 0) putchar('-');
  digits(n < 0 ? n : -n);
  putchar(' ');
}
void each(int n) {
  _Bool b = n;
  char c = n;
  signed char s = n;
  unsigned char u = n;
  short h = n;
  unsigned short v = n;
  print(b);
  print(c);
  print(s);
  print(u);
  print(h);
  print(v);
  putchar('\n');
}
int main(void) {
  each(0);
  each(1);
  each(127);
  each(128);
  each(255);
  each(256);
  each(-1);
  each(-128);
  each(-129);
  each(32767);
  each(32768);
  each(65535);
  each(65536);
  each(-32769);
  each(2147483647);
  each(-2147483647 - 1);
  return 0;
}
