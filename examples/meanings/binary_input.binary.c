int next(void) {
  int c = getchar();
  if (c != EOF) putchar(c - 32);
  return c;
}
