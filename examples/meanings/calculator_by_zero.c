int c;
int number(void) {
  int n = 0;
  while ((c = getchar()) >= '0' && c <= '9') n = 10 * n + (c - '0');
  return n;
}
int main(void) {
  int n = number();
  while (c == '/') {
    int m = number();
    n /= m;
    putchar('0' + n);
  }
  return 0;
}
