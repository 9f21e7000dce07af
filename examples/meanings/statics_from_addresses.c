/* Addresses as initializers: of elements, of rows, of functions and of texts, and sums within an object. */
void digits(int n) {
  if (n <= -10) digits(n / 10);
  putchar('0' - n % 10);
}
void print(int n) {
  if (n < 0) putchar('-');
  digits(n < 0 ? n : -n);
  putchar(' ');
}
int a[4] = {1, 2, 3, 4}, m[2][2] = {{5, 6}, {7, 8}};
int *end = a + 4, *back = &a[3] - 2, *same = &*(a + 1), *by_index = &2[a];
int (*row)[2] = &m[1], *in_row = m[1], *all = &m[0][1];
int f(int n) { return n + 1; }
int (*functions[])(int) = {f, &f, *f, NULL};
const char *const texts[2] = {"ab" "c", "defg" + 2};
char *none = NULL, *zero = 0, *sum = (char)0;
int **q = &back, ***r = &q;
int *list[2][2] = {{a, a + 1}, {NULL}};
int main(void) {
  print(end - a);
  print(*back);
  print(*same);
  print(*by_index);
  print((*row)[1]);
  print(*in_row);
  print(all[0]);
  print(functions[0](1) + functions[1](1) + functions[2](1));
  print(functions[3] == NULL);
  putchar(texts[0][2]);
  putchar(*texts[1]);
  print(none == zero);
  print(sum == NULL);
  ++**r;
  print(**q);
  print(*list[0][1]);
  print(list[1][1] == NULL);
  return 0;
}
