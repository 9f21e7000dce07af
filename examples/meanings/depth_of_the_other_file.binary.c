int
  g(int n) { return n == 0 ? 7 : g(n - 1); }
