int f(void);
int main(void) {
  putchar('a');
  return f();
}
