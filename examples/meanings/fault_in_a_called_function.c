int inner(int n) {
  return 10 / n;
}
int outer(int n) { return inner(n) + inner(n - 1); }
int main(void) {
  putchar('0' + outer(2) % 10);
  return outer(1);
}
