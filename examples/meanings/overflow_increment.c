int n = 2147483646;
int main(void) {
  n++;
  putchar('a');
  n
    ++;
  return 0;
}
