/* Arrays of arrays, their initializers, and pointers to rows. */
void digits(int n) {
  if (n <= -10) digits(n / 10);
  putchar('0' - n % 10);
}
void print(int n) {
  if (n < 0) putchar('-');
  digits(n < 0 ? n : -n);
  putchar(' ');
}
int m[3][4] = {{1, 2, 3, 4}, {5, 6}};
int sum(int row[4]) { return row[0] + row[1] + row[2] + row[3]; }
int all(int (*rows)[4], int n) {
  int s = 0;
  while (n--) s += sum(*rows++);
  return s;
}
int main(void) {
  print(m[0][3]);
  print(m[1][1]);
  print(m[1][2]);
  print(m[2][0]);
  print(sum(m[0]));
  print(all(m, 3));
  int (*p)[4] = m + 1;
  print((*p)[0]);
  print(p[-1][2]);
  print(*(*(m + 1) + 1));
  print(&m[2] - p);
  print(&m[1][3] - &m[1][0]);
  print(&m[2] - m);
  print(m[2] == *(m + 2));
  int (*w)[3][4] = &m;
  print((*w)[1][0]);
  print(w[0][0][1]);
  int c[2][2][2] = {{{1, 2}, {3}}, {{5}}};
  int s = 0;
  for (int i = 0; i < 2; i++)
    for (int j = 0; j < 2; j++)
      for (int k = 0; k < 2; k++) s = 10 * s + c[i][j][k];
  print(s);
  c[1][1][1] = 8;
  int *q = c[1][1];
  print(q[1]);
  print(**c[0]);
  int from_list[] = {4, 5, 6};
  print(sizeof from_list / sizeof(int));
  for (int i = 0; i < 3; i++) {
    int fresh[3] = {i};
    fresh[1]++;
    print(fresh[0] + fresh[1] + fresh[2]);
  }
  return 0;
}
