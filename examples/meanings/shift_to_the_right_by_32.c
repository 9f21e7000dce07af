int main(void) {
  int n = 1;
  n >>= 31;
  putchar('0' + n);
  n >>= 32;
  return n;
}
