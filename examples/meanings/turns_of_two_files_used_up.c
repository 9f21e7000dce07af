int f(int n);
int main(void) {
  int s = 0;
  for (int i = 0; i < 5; i++) { s += f(i); putchar('0' + s); }
  return s;
}
