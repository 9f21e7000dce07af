/* A function that ends without return gives 0, and so does main. */
void digits(int n) {
  if (n <= -10) digits(n / 10);
  putchar('0' - n % 10);
}
void print(int n) {
  if (n < 0) putchar('-');
  digits(n < 0 ? n : -n);
  putchar(' ');
}
int g;
int number(int n) { if (n) return n; }
int nothing(void) { }
char *pointer(int n) { if (n) return "p"; }
int (*function(int n))(int) { if (n) return number; }
void done(int n) { if (n) return; putchar('d'); }
int main(void) {
  print(number(5));
  print(number(0));
  print(nothing());
  print(pointer(1) == NULL);
  print(pointer(0) == NULL);
  print(function(1)(6));
  print(function(0) == NULL);
  done(1);
  done(0);
  g = 9;
}
