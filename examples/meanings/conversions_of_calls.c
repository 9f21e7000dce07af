/* Arguments, results and initializers are converted as by assignment. */
void digits(int n) {
  if (n <= -10) digits(n / 10);
  putchar('0' - n % 10);
}
void print(int n) {
  if (n < 0) putchar('-');
  digits(n < 0 ? n : -n);
  putchar(' ');
}
void unsigned_digits(unsigned n) {
  if (n >= 10) unsigned_digits(n / 10);
  putchar('0' + n % 10);
}
void print_unsigned(unsigned n) {
  unsigned_digits(n);
  putchar(' ');
}
int of_char(char c) { return c; }
int of_bool(_Bool b) { return b; }
unsigned of_unsigned(unsigned u) { return u; }
char to_char(int n) { return n; }
_Bool to_bool(int n) { return n; }
unsigned short to_short(int n) { return n; }
int to_int(unsigned u) { return u; }
_Bool is_there(int *p) { return p; }
int main(void) {
  print(of_char(300));
  print(of_char(200));
  print(of_bool(512));
  print_unsigned(of_unsigned(-1));
  print(to_char(200) + 1);
  print(to_bool(-7));
  print(to_short(-1));
  print(to_int(4294967290u));
  int x;
  print(is_there(&x));
  print(is_there(NULL));
  unsigned char cells[3] = {256, 257, -1};
  print(cells[0]);
  print(cells[1]);
  print(cells[2]);
  return 0;
}
