/* The towers of Hanoi. */
int moves;
void move(int n, char from, char to, char by) {
  if (!n) return;
  move(n - 1, from, by, to);
  putchar(from);
  putchar(to);
  putchar(' ');
  moves++;
  move(n - 1, by, to, from);
}
int main(void) {
  move(3, 'a', 'c', 'b');
  putchar('0' + moves);
  return 0;
}
