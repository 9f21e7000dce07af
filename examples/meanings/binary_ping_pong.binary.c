int ping(int n, int *trace);
int pong(int n, int *trace) {
  int mine[2] = {n, 1};
  *trace = 10 * *trace + 2;
  if (n == 0) return 0;
  return mine[0] + ping(n - mine[1], trace);
}
