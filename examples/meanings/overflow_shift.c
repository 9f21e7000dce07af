/* 1 << 30 is the greatest power of two of an int. */
int main(void) {
  int one = 1;
  int x = one << 30;
  putchar('a');
  x = one << 31;
  return x;
}
