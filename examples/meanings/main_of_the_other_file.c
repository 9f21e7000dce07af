/* A static main of the other file is a function as any other. */
int call(void);
int main(void) {
  putchar('a');
  putchar(call());
  return 0;
}
