/* Each entry of a block begins objects with new numbers, the arrays and the volatile and those whose address is taken. */
volatile int first;
int main(void) {
  for (int i = 0; i < 3; i++) {
    int none;
    volatile char v = i;
    int a[2], x, *p = &x;
    volatile short w = 10 * i;
    {
      volatile unsigned u = -i;
    }
  }
  volatile int end = first;
  return end;
}
