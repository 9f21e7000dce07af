/* Functions of the other file: arguments and results of each kind, objects of both files, and equal names that are static. */
void digits(int n) {
  if (n <= -10) digits(n / 10);
  putchar('0' - n % 10);
}
void print(int n) {
  if (n < 0) putchar('-');
  digits(n < 0 ? n : -n);
  putchar(' ');
}
int add(int a, int b);
char narrow(int n);
unsigned wide(unsigned char u);
_Bool truth(int *p);
void nothing(void);
int *element(int *p, int i);
const char *text(void);
extern int theirs[3];
extern int length;
int ours = 5;
static int hidden = 1;
static int help(void) { return hidden; }
int both(void);
int bump(void);
int main(void) {
  print(add(2, 3));
  print(narrow(200));
  print(wide(511) == 255);
  print(truth(&ours));
  print(truth(NULL));
  nothing();
  print(ours);
  int a[3] = {1, 2, 3};
  *element(a, 2) = 9;
  print(a[2]);
  const char *s = text();
  while (*s) putchar(*s++);
  theirs[1] = 8;
  print(theirs[0] + theirs[1] + theirs[2]);
  print(length);
  print(help() + 10 * both());
  print(bump());
  print(bump());
  return 0;
}
