/* Calls go to and fro between the files. */
void digits(int n) {
  if (n <= -10) digits(n / 10);
  putchar('0' - n % 10);
}
void print(int n) {
  if (n < 0) putchar('-');
  digits(n < 0 ? n : -n);
  putchar(' ');
}
int pong(int n, int *trace);
int ping(int n, int *trace) {
  int mine = n;
  *trace = 10 * *trace + 1;
  if (n == 0) return 0;
  return mine + pong(n - 1, trace);
}
int main(void) {
  int trace = 0;
  print(ping(5, &trace));
  print(trace);
  return 0;
}
