/* The other file has no main, so 1,000 of its functions may live. */
int g(int n);
int main(void) {
  putchar('0' + g(999));
  return g(1000);
}
