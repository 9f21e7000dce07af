/* Pointers to functions of either file, called in either. */
void digits(int n) {
  if (n <= -10) digits(n / 10);
  putchar('0' - n % 10);
}
void print(int n) {
  if (n < 0) putchar('-');
  digits(n < 0 ? n : -n);
  putchar(' ');
}
int twice(int n);
int thrice(int n);
int (*choose(int n))(int);
int apply(int (*f)(int), int n);
int same(int (*f)(int), int (*g)(int));
extern int (*stored)(int);
int square(int n) { return n * n; }
int (*table[])(int) = {twice, square, thrice};
int main(void) {
  for (int i = 0; i < 3; i++) print(table[i](5));
  print(choose(2)(7));
  print((*choose(3))(7));
  print(choose(4) == NULL);
  print(apply(square, 6));
  print(apply(twice, 6));
  print(apply(choose(3), 6));
  print(same(twice, choose(2)));
  print(same(twice, square));
  print(stored(4));
  stored = square;
  print(apply(NULL, 4));
  print(twice == choose(2));
  return 0;
}
