/* The rows of an array are one object, so an index may run past a row. */
void digits(int n) {
  if (n <= -10) digits(n / 10);
  putchar('0' - n % 10);
}
void print(int n) {
  if (n < 0) putchar('-');
  digits(n < 0 ? n : -n);
  putchar(' ');
}
int m[2][3] = {{1, 2, 3}, {4, 5, 6}};
int main(void) {
  print(m[0][5]);
  print(m[1][-3]);
  int *p = m[0];
  for (int i = 0; i < 6; i++) print(p[i]);
  print(&m[1][2] - m[0]);
  return 0;
}
