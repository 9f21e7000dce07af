int f(int n) {
  if (n == 3) while (n < 4) n++;
  return n;
}
