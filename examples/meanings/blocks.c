/* A name of an inner block hides one of an outer block. */
void digits(int n) {
  if (n <= -10) digits(n / 10);
  putchar('0' - n % 10);
}
void print(int n) {
  if (n < 0) putchar('-');
  digits(n < 0 ? n : -n);
  putchar(' ');
}
int x = 1;
int f(int x) {
  print(x);
  {
    int x = 3;
    print(x);
    for (int x = 7; x < 9; x++) {
      int x = 5;
      print(x);
      x++;
    }
    print(x);
  }
  x = 4;
  return x;
}
int main(void) {
  print(x);
  print(f(2));
  print(x);
  int y = x + 1, z = y + 1;
  {
    int y = z;
    z = y + 5;
    { }
    ;
  }
  print(y);
  print(z);
  return 0;
}
