/* Two null pointers are of one object, and a null pointer and another are not. */
int main(void) {
  int x, *p = NULL, *q = NULL;
  putchar('0' + (p <= q));
  putchar('0' + (p - q));
  q = &x;
  return p > q;
}
