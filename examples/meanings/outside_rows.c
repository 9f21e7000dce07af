/* The offset counts cells: 65,535 of them, whatever a row has. */
int a[2][1000];
int main(void) {
  &a[65];
  putchar('a');
  &a[66];
  return 0;
}
