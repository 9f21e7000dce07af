int main(void) {
  for (int i = 0; i < 3; i++) {
    int j = 0;
    while (j < 2) { putchar('0' + j); j++; }
  }
  return 0;
}
