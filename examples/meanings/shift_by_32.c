int main(void) {
  unsigned u = 1, n = 31;
  u << n;
  putchar('a');
  n++;
  return u << n;
}
