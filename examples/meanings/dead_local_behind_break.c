/* break leaves the block. */
int main(void) {
  int *p = NULL;
  while (1) {
    int a[3] = {1, 2, 3};
    p = a + 1;
    break;
  }
  return *p;
}
