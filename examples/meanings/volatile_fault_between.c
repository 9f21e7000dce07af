/* The old value is read, and the sum is undefined: so nothing is written. */
volatile int port = 2147483647;
int main(void) {
  port++;
  return 0;
}
