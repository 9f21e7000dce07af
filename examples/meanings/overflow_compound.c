/* The right side is evaluated before the sum, and nothing is written. */
int n = 2147483647;
int one(void) { putchar('1'); return 1; }
int main(void) {
  n
    += one();
  return 0;
}
