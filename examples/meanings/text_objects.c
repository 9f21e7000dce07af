/* Each text is an object of its own, equal ones too; those of the file come behind its objects. */
void digits(int n) {
  if (n <= -10) digits(n / 10);
  putchar('0' - n % 10);
}
void print(int n) {
  if (n < 0) putchar('-');
  digits(n < 0 ? n : -n);
  putchar(' ');
}
char *a = "same", *b = "same";
volatile char port[] = "no object";
char *f(void) { return "same"; }
int main(void) {
  volatile int end = 1;
  print(a == b);
  print(f() == f());
  print(f() == a);
  char *s = "local";
  s = s;
  return port[3];
}
