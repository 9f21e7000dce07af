/* A pointer may go as far as 65,535 cells, though not be used there, and no further. */
int a[3];
int main(void) {
  int *p = a + 65535;
  p -= 65533;
  *p = 7;
  putchar('0' + a[2]);
  p = p + 65533;
  putchar('b');
  p++;
  return 0;
}
