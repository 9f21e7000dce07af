/* l op= e reads the old value of l before e changes it. */
void digits(int n) {
  if (n <= -10) digits(n / 10);
  putchar('0' - n % 10);
}
void print(int n) {
  if (n < 0) putchar('-');
  digits(n < 0 ? n : -n);
  putchar(' ');
}
int g = 1;
int set(int v) { g = v; return v; }
int main(void) {
  int x = 1;
  x += (x = 5);
  print(x);
  x += x++;
  print(x);
  x = 10;
  x -= --x;
  print(x);
  x = 3;
  x *= (x += 1) + x;
  print(x);
  g += set(5);
  print(g);
  g -= set(2) + g;
  print(g);
  int y = 1, *p = &y;
  y += (*p = 7);
  print(y);
  *p <<= (y = 2);
  print(y);
  int a[3] = {1, 2, 3}, i = 0;
  a[i] += (i = 2) + (a[0] = 9);
  print(a[0]);
  print(a[2]);
  int *q = a;
  *q++ += *q;
  print(a[0]);
  q += (q = a + 2) - a;
  print(q - a);
  return 0;
}
