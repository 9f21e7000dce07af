/* Both files read one input, and write one output. */
int next(void);
int main(void) {
  int c;
  do {
    c = getchar();
    if (c != EOF) putchar(c);
  } while (next() != EOF);
  return 0;
}
