/* Addresses, steps, and what they lead to. */
void digits(int n) {
  if (n <= -10) digits(n / 10);
  putchar('0' - n % 10);
}
void print(int n) {
  if (n < 0) putchar('-');
  digits(n < 0 ? n : -n);
  putchar(' ');
}
void swap(int *a, int *b) { int c = *a; *a = *b; *b = c; }
int *greater(int *a, int *b) { return *a > *b ? a : b; }
int main(void) {
  int x = 1, y = 2, *p = &x, **q = &p, ***r = &q;
  swap(&x, &y);
  print(x);
  print(y);
  *p = 5;
  print(x);
  *q = &y;
  *p += 6;
  print(y);
  ***r = 9;
  print(*&y);
  print(*greater(&x, &y));
  *greater(&x, &y) = 0;
  print(y);
  print(p == &y);
  print(*q != &x);
  int a[5] = {10, 11, 12, 13, 14};
  p = a;
  print(*p++);
  print(*++p);
  print(p[-1]);
  print(*(p + 2));
  print(1[p]);
  print((p + 2)[-3]);
  p += 2;
  p--;
  print(*p);
  print(&a[4] - p);
  print(p - &a[4]);
  print(p < &a[4]);
  print(p >= a + 3);
  print(a + 5 > p);
  for (p = a; p < a + 5; p++) *p = 2 * *p;
  print(a[4]);
  int *row[3] = {a, &a[2], NULL};
  print(*row[1]);
  print(row[1][2]);
  print(!row[2]);
  print(*row[0]++);
  print(*row[0]);
  (*row)[0] += 1;
  print(a[1]);
  return 0;
}
