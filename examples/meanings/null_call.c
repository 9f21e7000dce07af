/* The arguments are evaluated before the call, which is told at its parenthesis. */
int a(void) { putchar('a'); return 1; }
int main(void) {
  int (*f)(int) = NULL;
  return f
    (a());
}
