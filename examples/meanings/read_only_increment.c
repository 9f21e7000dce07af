/* The old value is read before the write is tested. */
int main(void) {
  char *s = "abc";
  putchar(s[1]);
  s[1]++;
  return 0;
}
