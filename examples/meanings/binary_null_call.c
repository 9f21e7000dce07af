int call(int (*f)(void));
int one(void) { return 1; }
int main(void) {
  putchar('0' + call(one));
  return call(NULL);
}
