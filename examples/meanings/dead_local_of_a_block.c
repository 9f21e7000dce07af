int main(void) {
  int *p;
  {
    int x = 5;
    p = &x;
    putchar('0' + *p);
  }
  putchar('a');
  return
    *p;
}
