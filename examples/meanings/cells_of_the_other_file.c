int f(int n);
int main(void) {
  int a[65535];
  a[0] = f(15);
  putchar('0' + a[0]);
  return f(16);
}
