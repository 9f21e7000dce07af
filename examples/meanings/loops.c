/* while, do and for, in one another, with break and continue. */
void digits(int n) {
  if (n <= -10) digits(n / 10);
  putchar('0' - n % 10);
}
void print(int n) {
  if (n < 0) putchar('-');
  digits(n < 0 ? n : -n);
  putchar(' ');
}
int main(void) {
  for (int i = 0; i < 4; i++) {
    if (i == 1) continue;
    for (int j = 0; ; j++) {
      if (j > i) break;
      int k = j;
      do {
        if (k == 2) continue;
        putchar('0' + k);
      } while (k-- > 0);
      if (j == 2) break;
    }
    putchar(' ');
    while (1) {
      if (i < 3) break;
      putchar('w');
      i = -5;
    }
    if (i < 0) break;
  }
  int n = 0;
  while (n < 10) {
    n++;
    if (n % 3) continue;
    print(n);
  }
  do print(n--); while (n > 8);
  do {
    n++;
    if (n == 10) break;
  } while (1);
  print(n);
  while (n) n--;
  for (;;) {
    if (++n > 3) break;
    else continue;
    putchar('!');
  }
  print(n);
  for (n = 5; n--;);
  print(n);
  do ; while (++n);
  print(n);
  while (0) putchar('!');
  for (; 0; putchar('!'));
  return 0;
}
