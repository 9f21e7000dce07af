int main(void) {
  int *p = NULL;
  &p[0];
  &0[p];
  putchar('a');
  &p[1];
  return 0;
}
