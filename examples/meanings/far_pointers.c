/* A pointer may go beyond its object and back, as long as it stays within 65,536 cells. */
void digits(int n) {
  if (n <= -10) digits(n / 10);
  putchar('0' - n % 10);
}
void print(int n) {
  if (n < 0) putchar('-');
  digits(n < 0 ? n : -n);
  putchar(' ');
}
int a[4] = {1, 2, 3, 4};
int main(void) {
  int *p = a + 1000;
  print(p > a);
  print(p - a);
  p -= 998;
  print(*p);
  p = &a[65535];
  print(p - &a[3]);
  print(*(p - 65534));
  return 0;
}
