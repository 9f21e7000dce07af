const int c = 1;
int main(void) {
  putchar('a');
  c
    = 2;
  return 0;
}
