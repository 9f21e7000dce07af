/* The arguments are evaluated before the activations are looked at. */
int f(int n);
int (*g)(int) = f;
int
  f(int n) {
  return g(n == 998 ? putchar('a') : n + 1);
}
int main(void) { return f(0); }
