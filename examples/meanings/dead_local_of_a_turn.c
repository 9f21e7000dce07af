/* Each turn of a loop has an object of its own. */
int main(void) {
  int *p = NULL;
  for (int i = 0; i < 2; i++) {
    int x = i;
    if (p == NULL) p = &x;
    putchar('0' + *p);
  }
  return 0;
}
