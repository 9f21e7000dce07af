/* An else belongs to the nearest if. */
void kind(int n) {
  if (n < 0) putchar('-');
  else if (n == 0) putchar('0');
  else if (n < 10) {
    if (n % 2) putchar('o');
    else putchar('e');
  } else putchar('+');
  if (n) if (n > 5) putchar('b'); else putchar('s');
  if (n) { if (n > 5) putchar('B'); } else putchar('Z');
  if (n == 3);
  else putchar(',');
}
int main(void) {
  kind(-1);
  kind(0);
  kind(3);
  kind(4);
  kind(8);
  kind(10);
  const char *s = "x";
  if (s) putchar('s');
  if (kind) putchar('k');
  return 0;
}
