/* Objects of the file: their initializers, tentative definitions, and what is not given is 0. */
void digits(int n) {
  if (n <= -10) digits(n / 10);
  putchar('0' - n % 10);
}
void print(int n) {
  if (n < 0) putchar('-');
  digits(n < 0 ? n : -n);
  putchar(' ');
}
int a;
int a;
extern int b;
int c = 3;
extern int c;
static int d;
static int d = 4;
int b = 2;
int e[3] = {1, 2};
extern int g[];
int *p = &e[1], *q = e + 2, *r = &*e;
int (*f)(int);
int h = 1 ? 5 : 1 / 0, i = 0 && 1 / 0, j = sizeof e == 12, k = -(1 << 4) + 'a', l = (char)300;
unsigned char m = 257;
_Bool n = 7;
char *s = "abc" + 1;
int **t = &p;
int g[2];
static int inc(int n) { return n + 1; }
int (*f)(int) = inc;
extern const unsigned u;
const unsigned u = -1;
int main(void) {
  print(a);
  print(b);
  print(c);
  print(d);
  print(e[0] + e[1] + e[2]);
  print(g[0] + g[1]);
  print(*p);
  print(*q);
  print(*r);
  print(f(9));
  print(h);
  print(i);
  print(j);
  print(k);
  print(l);
  print(m);
  print(n);
  print(*s);
  print(**t);
  print(u == 4294967295u);
  a = b + c;
  e[2] = a;
  print(*q);
  p = q;
  print(**t);
  return 0;
}
