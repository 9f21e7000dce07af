/* An access that is undefined is no event. */
volatile int a[2];
int main(void) {
  volatile int *p = a;
  *p++ = 1;
  *p++ = 2;
  return *p;
}
