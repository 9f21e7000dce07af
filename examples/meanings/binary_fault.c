int divide(int a, int b);
int main(void) {
  putchar('0' + divide(6, 2));
  return divide(1, 0);
}
