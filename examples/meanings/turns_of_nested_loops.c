/* 1 of main, 4 of the outer loop, and 3 times 3 of the inner ones. */
int main(void) {
  for (int i = 0; i < 3; i++) {
    int j = 0;
    while (j < 2) { putchar('0' + j); j++; }
  }
  return 0;
}
