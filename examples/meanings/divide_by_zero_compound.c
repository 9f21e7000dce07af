int main(void) {
  char c = 100;
  for (int i = 5; ; i--) {
    putchar('0' + i);
    c /= i;
  }
}
