int main(void) {
  int m = -1;
  m >> 1;
  m << 0;
  return 0;
}
/* A negative number is not shifted to the left, by nothing neither. */
