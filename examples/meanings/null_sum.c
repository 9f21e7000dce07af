/* Nothing may be added to a null pointer but 0. */
int main(void) {
  int *p = NULL;
  p = p + 0;
  p += 0;
  putchar('a');
  return p - 1 == NULL;
}
