/* A pointer never goes below its object. */
int a[3];
int main(void) {
  int *p = a + 2;
  p -= 2;
  putchar('a');
  p
    -= 1;
  return 0;
}
