/* What a for declares lives until its end. */
int main(void) {
  int *p;
  for (int i = 0; p = &i, i < 2; i++) putchar('0' + *p);
  *p = 1;
  return 0;
}
