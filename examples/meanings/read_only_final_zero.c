/* A text ends with a 0 of its own; an array that a text begins can be written. */
char a[] = "abc";
int main(void) {
  a[3] = 'd';
  putchar(a[3]);
  char *s = "abc";
  s[3] = 'd';
  return 0;
}
