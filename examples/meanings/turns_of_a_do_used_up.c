int main(void) {
  int n = 0;
  do {
    putchar('a' + n);
    n++;
  } while (n < 3);
  return n;
}
