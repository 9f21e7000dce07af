static void end(int n) { exit(n); }
int leave(int n) {
  putchar('b');
  end(n);
  putchar('!');
  return '!';
}
