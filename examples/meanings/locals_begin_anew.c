/* A local without initializer begins as 0, at each entry of its block. */
void digits(int n) {
  if (n <= -10) digits(n / 10);
  putchar('0' - n % 10);
}
void print(int n) {
  if (n < 0) putchar('-');
  digits(n < 0 ? n : -n);
  putchar(' ');
}
int sum(int n) {
  int s, a[3], *p;
  if (p) return -1;
  s += a[0] + a[1] + a[2];
  a[n] = 7;
  p = a;
  s += p[n] + n;
  return s;
}
int main(void) {
  int total = 0;
  for (int i = 0; i < 3; i++) {
    int register_local, placed, *p = &placed;
    register_local++;
    (*p)++;
    total += 10 * register_local + placed;
    while (register_local < 3) {
      char c;
      _Bool b;
      if (c || b) return 1;
      c = b = 1;
      register_local++;
    }
  }
  print(total);
  print(sum(0));
  print(sum(2));
  return 0;
}
