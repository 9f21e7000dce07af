/* Products of matrices, by pointers to rows. */
void digits(int n) {
  if (n <= -10) digits(n / 10);
  putchar('0' - n % 10);
}
void print(int n) {
  if (n < 0) putchar('-');
  digits(n < 0 ? n : -n);
  putchar(' ');
}
void multiply(int (*to)[3], const int (*a)[3], const int (*b)[3]) {
  for (int i = 0; i < 3; i++)
    for (int j = 0; j < 3; j++) {
      int s = 0;
      for (int k = 0; k < 3; k++) s += a[i][k] * b[k][j];
      to[i][j] = s;
    }
}
const int a[3][3] = {{1, 2, 3}, {4, 5, 6}, {7, 8, 9}}, one[3][3] = {{1}, {0, 1}, {0, 0, 1}};
int main(void) {
  int b[3][3], c[3][3];
  multiply(b, a, one);
  print(b[2][1]);
  multiply(c, a, a);
  for (int *q = c[0]; q < c[0] + 3; q++) print(*q);
  print(c[1][1]);
  print(c[2][2]);
  return 0;
}
