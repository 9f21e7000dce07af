int leave(int n);
int main(void) {
  putchar('a');
  putchar(leave(298));
  return 1;
}
