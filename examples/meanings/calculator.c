/* Reads expressions line by line, and writes their values. */
void digits(int n) {
  if (n <= -10) digits(n / 10);
  putchar('0' - n % 10);
}
void print(int n) {
  if (n < 0) putchar('-');
  digits(n < 0 ? n : -n);
  putchar(' ');
}
int c;
int sum(void);
void next(void) { do c = getchar(); while (c == ' '); }
int atom(void) {
  int n = 0;
  if (c == '-') {
    next();
    return -atom();
  }
  if (c == '(') {
    next();
    n = sum();
    next();
    return n;
  }
  while (c >= '0' && c <= '9') {
    n = 10 * n + (c - '0');
    next();
  }
  return n;
}
int product(void) {
  int n = atom();
  while (c == '*' || c == '/' || c == '%') {
    int op = c;
    next();
    int m = atom();
    n = op == '*' ? n * m : op == '/' ? n / m : n % m;
  }
  return n;
}
int sum(void) {
  int n = product();
  while (c == '+' || c == '-') {
    int op = c;
    next();
    int m = product();
    if (op == '+') n += m; else n -= m;
  }
  return n;
}
int main(void) {
  for (next(); c != EOF; next()) {
    print(sum());
    putchar('\n');
  }
  return 0;
}
