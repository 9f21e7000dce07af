/* Each operator of assignment, and the value that it has. */
void digits(int n) {
  if (n <= -10) digits(n / 10);
  putchar('0' - n % 10);
}
void print(int n) {
  if (n < 0) putchar('-');
  digits(n < 0 ? n : -n);
  putchar(' ');
}
int main(void) {
  int x = 100;
  print(x += 5);
  print(x -= 10);
  print(x *= 2);
  print(x /= 7);
  print(x %= 10);
  print(x <<= 4);
  print(x >>= 2);
  print(x &= 24);
  print(x |= 3);
  print(x ^= 5);
  int a[2] = {7, 9};
  a[1] += a[0] *= 2;
  print(a[0]);
  print(a[1]);
  int y = x = a[0];
  print(x + y);
  return 0;
}
