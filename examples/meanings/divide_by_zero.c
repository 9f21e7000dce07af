int main(void) {
  int zero = 0;
  putchar('a');
  return 1
    / zero;
}
