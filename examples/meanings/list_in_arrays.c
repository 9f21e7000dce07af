/* A list by the indices of two arrays, whose free cells are a list too. */
void digits(int n) {
  if (n <= -10) digits(n / 10);
  putchar('0' - n % 10);
}
void print(int n) {
  if (n < 0) putchar('-');
  digits(n < 0 ? n : -n);
  putchar(' ');
}
int value[8], next[8], head = -1, free_cell = 0;
void push(int v) {
  int cell = free_cell;
  free_cell = next[cell];
  value[cell] = v;
  next[cell] = head;
  head = cell;
}
int pop(void) {
  int cell = head, v = value[cell];
  head = next[cell];
  next[cell] = free_cell;
  free_cell = cell;
  return v;
}
void reverse(int *from) {
  int before = -1, at = *from;
  while (at >= 0) {
    int after = next[at];
    next[at] = before;
    before = at;
    at = after;
  }
  *from = before;
}
int main(void) {
  for (int i = 0; i < 8; i++) next[i] = i + 1;
  push(3);
  push(4);
  push(5);
  print(pop());
  push(6);
  push(7);
  reverse(&head);
  while (head >= 0) print(pop());
  print(free_cell);
  return 0;
}
