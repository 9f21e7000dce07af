int *local(void);
int read(int *p);
int main(void) {
  int x = 5;
  putchar('0' + read(&x));
  int *p = local();
  return *p;
}
