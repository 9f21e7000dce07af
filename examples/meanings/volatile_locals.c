/* Initializers of volatile scalars are writes; those of arrays and of parameters are told nowhere. */
int f(volatile int n, int m, volatile char) {
  return n + m;
}
int main(void) {
  volatile int x = 1;
  volatile int a[2] = {2, 3}, none;
  x = f(x, 2, 'c');
  none = f(a[0], a[1], 'd');
  return x;
}
