/* Character constants and escapes; a byte of 128 or more is a negative number. */
void digits(int n) {
  if (n <= -10) digits(n / 10);
  putchar('0' - n % 10);
}
void print(int n) {
  if (n < 0) putchar('-');
  digits(n < 0 ? n : -n);
  putchar(' ');
}
int main(void) {
  print('A');
  print('\n');
  print('\t');
  print('\r');
  print('\a');
  print('\b');
  print('\f');
  print('\v');
  print('\\');
  print('\'');
  print('"');
  print('\"');
  print('\?');
  print('\0');
  print('\101');
  print('\x41');
  print('\377');
  print('\x80');
  const char *s = "\x41\102\0C\377";
  print(s[0]);
  print(s[1]);
  print(s[2]);
  print(s[3]);
  print(s[4]);
  print(s[5]);
  return 0;
}
