/* ++ and -- before and behind objects of each type. */
void digits(int n) {
  if (n <= -10) digits(n / 10);
  putchar('0' - n % 10);
}
void print(int n) {
  if (n < 0) putchar('-');
  digits(n < 0 ? n : -n);
  putchar(' ');
}
void unsigned_digits(unsigned n) {
  if (n >= 10) unsigned_digits(n / 10);
  putchar('0' + n % 10);
}
void print_unsigned(unsigned n) {
  unsigned_digits(n);
  putchar(' ');
}
int main(void) {
  int i = 5;
  print(i++);
  print(i);
  print(++i);
  print(i--);
  print(--i);
  char c = 127;
  print(c++);
  print(c);
  print(--c);
  unsigned char u = 0;
  print(u--);
  print(u);
  print(++u);
  short s = -32767;
  print(--s);
  print(--s);
  unsigned n = 0;
  print_unsigned(n--);
  print_unsigned(n++);
  print_unsigned(n);
  int a[3] = {10, 20, 30};
  int *p = a;
  print(*p++);
  print(*++p);
  print((*p)--);
  print(--*p);
  print(*p--);
  print(*p);
  print(p - a);
  int k = 0;
  a[k++]++;
  print(a[0]);
  print(k);
  return 0;
}
