/* The value is evaluated before the write. */
int v(void) { putchar('v'); return 1; }
int main(void) {
  int *p = NULL;
  p
    [0]
    = v();
  return 0;
}
