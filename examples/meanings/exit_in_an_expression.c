/* Nothing comes after exit. */
int leave(int n) { putchar('l'); exit(n); putchar('!'); return 1; }
int main(void) {
  int x = 1;
  x = x + (putchar('a'), leave(263)) + putchar('!');
  putchar('!');
  return x;
}
