/* sizeof evaluates nothing and is unsigned; a pointer has 4 bytes. */
void digits(int n) {
  if (n <= -10) digits(n / 10);
  putchar('0' - n % 10);
}
void print(int n) {
  if (n < 0) putchar('-');
  digits(n < 0 ? n : -n);
  putchar(' ');
}
int f(void) { putchar('!'); return 1; }
int main(void) {
  char c;
  short s;
  int i = 1, a[3][5], *p = NULL, (*q)[5] = a, *r[7];
  unsigned short t[4];
  print(sizeof c);
  print(sizeof s);
  print(sizeof(_Bool));
  print(sizeof(unsigned));
  print(sizeof p);
  print(sizeof a);
  print(sizeof a[0]);
  print(sizeof *q);
  print(sizeof q);
  print(sizeof r);
  print(sizeof t);
  print(sizeof "text");
  print(sizeof(int *[2]));
  print(sizeof(int (*)(void)));
  print(sizeof(c + s));
  print(sizeof +c);
  print(sizeof 'a');
  print(sizeof(c = 'a'));
  print(sizeof c++);
  print(sizeof f());
  print(sizeof i++);
  print(sizeof *p);
  print(sizeof a / sizeof a[0][0]);
  print(i);
  print(sizeof(int) - 5 > 0);
  print(-1 < sizeof i);
  return 0;
}
