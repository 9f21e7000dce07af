int main(void) {
  int x = 1, *p = &x;
  p[0];
  putchar('a');
  return p[1];
}
