/* A pointer is 1 as a _Bool where it is not null; so is a function, and a static _Bool that an address begins. */
void digits(int n) {
  if (n <= -10) digits(n / 10);
  putchar('0' - n % 10);
}
void print(int n) {
  if (n < 0) putchar('-');
  digits(n < 0 ? n : -n);
  putchar(' ');
}
int x;
int f(void) { return 0; }
_Bool a = &x, b = "text", c = f, d = NULL;
int is(_Bool v) { return v; }
int main(void) {
  int *p = &x, *none = NULL;
  _Bool t = p;
  print(a + b + c + d);
  print(t);
  t = none;
  print(t);
  print(is(p) + is(f) + is("") + is(none) + is(0));
  print(p && f && "");
  print(none || !p);
  if (none) putchar('!');
  while (p) p = NULL;
  do putchar('d'); while (p);
  for (p = &x; p; p = none) putchar('f');
  t = 1 ? p : &x;
  print(t);
  return 0;
}
