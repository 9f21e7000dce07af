/* Writes each run of equal bytes as its length and the byte, and the text backwards. */
void digits(int n) {
  if (n <= -10) digits(n / 10);
  putchar('0' - n % 10);
}
void print(int n) {
  if (n < 0) putchar('-');
  digits(n < 0 ? n : -n);
  putchar(' ');
}
char text[64];
int main(void) {
  int n = 0, c, i;
  while ((c = getchar()) != EOF) text[n++] = c;
  for (i = 0; i < n;) {
    int from = i;
    while (i < n && text[i] == text[from]) ++i;
    print(i - from);
    putchar(text[from]);
    putchar(' ');
  }
  for (char *p = text + n; p != text;) putchar(*--p);
  return 0;
}
