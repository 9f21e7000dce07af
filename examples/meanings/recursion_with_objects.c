/* Each activation has its own locals, those in memory too. */
void digits(int n) {
  if (n <= -10) digits(n / 10);
  putchar('0' - n % 10);
}
void print(int n) {
  if (n < 0) putchar('-');
  digits(n < 0 ? n : -n);
  putchar(' ');
}
int depth(int n, int *above) {
  int mine = n, kept = 100 * n;
  if (n == 0) return *above;
  int below = depth(n - 1, &mine);
  return 10 * below + mine + (kept != 100 * n);
}
int sum(int n) {
  int a[2] = {n};
  a[1] = n ? sum(n - 1) : 0;
  return a[0] + a[1];
}
void reverse(void) {
  int c = getchar();
  if (c == EOF) return;
  reverse();
  putchar(c);
}
int main(void) {
  print(depth(3, NULL));
  print(sum(100));
  reverse();
  return 0;
}
