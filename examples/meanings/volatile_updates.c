/* ++ and op= on a volatile object read it once and write it once; the value of an assignment is not read again. */
volatile int p = 10, q;
int main(void) {
  int x = p++;
  x = ++p;
  x = p--;
  p += 5;
  p -= x;
  p <<= 2;
  p = q = 3;
  x = p = 4;
  p *= p;
  p += (p = 1);
  q = x + p + p;
  p = p;
  return p ? q - 4 - p : 0;
}
