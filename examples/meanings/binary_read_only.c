char *text(void);
int main(void) {
  char *s = text();
  putchar(s[0]);
  *s = 'b';
  return 0;
}
