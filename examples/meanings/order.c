/* Where C gives no order, evaluation goes from left to right. */
void digits(int n) {
  if (n <= -10) digits(n / 10);
  putchar('0' - n % 10);
}
void print(int n) {
  if (n < 0) putchar('-');
  digits(n < 0 ? n : -n);
  putchar(' ');
}
int a(void) { putchar('a'); return 1; }
int b(void) { putchar('b'); return 2; }
int c(void) { putchar('c'); return 3; }
int three(int x, int y, int z) { return 100 * x + 10 * y + z; }
int cells[4];
int *at(int i) { putchar('0' + i); return cells + i; }
int main(void) {
  print(a() + b() * c());
  print(three(c(), b(), a()));
  print(a() < b() == c());
  cells[a()] = b();
  *at(0) = *at(1) = c();
  print(cells[0] + cells[1]);
  print(at(1)[b()] = c());
  *at(2) += b();
  print(at(3) - at(1));
  int i = 0;
  print(three(i++, i++, i++));
  print(i++ + i++);
  print(i++ - i--);
  print(i + (i = 1));
  print((i = 2) * i);
  cells[i] = i = 0;
  print(cells[2]);
  cells[i++] = i;
  print(cells[0]);
  cells[i] = i++;
  print(cells[1]);
  (i ? a : b)() - (i ? c : b)();
  return 0;
}
