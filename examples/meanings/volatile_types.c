/* A value is told modulo 4,294,967,296, whatever the type of the object. A pointer is told as 65,536 times the number of
   its object, and its offset; a pointer to a function as the number of the function. */
volatile char c;
volatile unsigned char u;
volatile short s;
volatile unsigned short v;
volatile unsigned n;
volatile _Bool b;
int *volatile p;
int (*volatile f)(void);
int one(void) { return 1; }
int two(void) { return 2; }
int main(void) {
  c = 200;
  u = -1;
  s = -1;
  v = -1;
  n = -2;
  b = 7;
  int x[4];
  p = x + 3;
  f = two;
  b = c < 0 && p && f;
  b--;
  b--;
  p = NULL;
  return b;
}
