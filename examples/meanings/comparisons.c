/* Each comparison of less, equal and greater, and of operands of two types. */
void bit(int b) { putchar('0' + b); }
void six(int a, int b) {
  bit(a < b);
  bit(a > b);
  bit(a <= b);
  bit(a >= b);
  bit(a == b);
  bit(a != b);
  putchar(' ');
}
void six_unsigned(unsigned a, unsigned b) {
  bit(a < b);
  bit(a > b);
  bit(a <= b);
  bit(a >= b);
  bit(a == b);
  bit(a != b);
  putchar(' ');
}
int main(void) {
  six(1, 2);
  six(2, 2);
  six(3, 2);
  six(-2147483647 - 1, 2147483647);
  six(-1, 0);
  six_unsigned(4294967295u, 0);
  six_unsigned(-1, 4294967295u);
  int m = -1;
  char c = -1;
  unsigned char u = 255;
  short s = -1;
  unsigned short v = 65535;
  bit(m < 0u);
  bit(m > 0u);
  bit(2147483647 < 2147483648u);
  bit(m == 4294967295u);
  bit(c == 255);
  bit(u == 255);
  bit(c < u);
  bit(s < v);
  bit(s == v);
  bit(3 > 2 > 1);
  bit(1 < 2 == 1);
  return 0;
}
