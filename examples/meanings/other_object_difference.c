int a[2], b[2];
int main(void) {
  int *p = a, *q = b;
  p == q;
  p != b;
  putchar('a');
  return p
    - q;
}
