/* Operands go from left to right, and the first fault ends the run. */
int main(void) {
  int *p = NULL, zero = 0;
  int most = 2147483647;
  return (putchar('a'), most + 1)
    + (putchar('b'), 1 / zero) + *p;
}
