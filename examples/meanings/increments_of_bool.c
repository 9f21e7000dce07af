/* A _Bool takes ++ and -- as an int, and is 1 where that is not 0: so -- on 0 gives 1. */
void bit(int b) { putchar('0' + b); }
int main(void) {
  _Bool b = 0;
  bit(b++);
  bit(b);
  bit(b++);
  bit(b);
  bit(b--);
  bit(b);
  bit(b--);
  bit(b);
  bit(--b);
  bit(++b);
  return 0;
}
