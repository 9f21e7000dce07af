/* What accesses a volatile object, and what does not. */
volatile int p = 1, q = 2;
volatile int *address(void) { return &p; }
int main(void) {
  p;
  (void)q;
  p, q;
  &p;
  *&q;
  sizeof p;
  sizeof(p++);
  p && q;
  !p && q;
  p || q;
  1 ? p : q;
  -p;
  *address();
  address()[0] = q;
  if (p) ;
  for (; p > 4;) ;
  return p + (q == 2);
}
