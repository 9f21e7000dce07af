/* Pointers to functions: called in each way, compared, in tables, passed and returned. */
void digits(int n) {
  if (n <= -10) digits(n / 10);
  putchar('0' - n % 10);
}
void print(int n) {
  if (n < 0) putchar('-');
  digits(n < 0 ? n : -n);
  putchar(' ');
}
int add(int a, int b) { return a + b; }
int sub(int a, int b) { return a - b; }
int mul(int a, int b) { return a * b; }
int (*const table[3])(int, int) = {add, &sub, *mul};
int (*pick(int c))(int, int) { return c == '+' ? add : c == '-' ? sub : NULL; }
int twice(int f(int, int), int n) { return f(f(n, n), n); }
int apply(int (*g)(int (*)(int, int), int), int n) { return g(mul, n); }
void say(void) { putchar('s'); }
void hush(void) { putchar('h'); }
int main(void) {
  int (*f)(int, int) = add;
  print(f(7, 3));
  print((*f)(7, 3));
  print((***f)(7, 3));
  print((&sub)(7, 3));
  print((*mul)(7, 3));
  for (int i = 0; i < 3; i++) print(table[i](8, 2));
  print((*table[2])(3, 3));
  print(pick('-')(1, 5));
  print(pick('*') == NULL);
  print(pick('+') == add);
  print(f != sub);
  print(f == *f);
  print(twice(mul, 3));
  print(apply(twice, 2));
  int (**p)(int, int) = &f;
  *p = sub;
  print((*p)(9, 1));
  print(!f);
  void (*which[2])(void) = {say, hush};
  which[0]();
  (1 ? hush : say)();
  which[1] = which[0];
  which[1]();
  f = NULL;
  print(f ? f(1, 1) : -1);
  return 0;
}
