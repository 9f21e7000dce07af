int *f(int n) { return &n; }
int g(int *p) { return *p; }
int main(void) {
  int n = 7;
  putchar('0' + g(&n));
  return g(f(5));
}
