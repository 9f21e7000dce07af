int main(void) {
  putchar('a');
  while (0) putchar('!');
  return 0;
}
