int main(void) {
  int n = 0;
  for
    (int i = 0; i < 3; i++) {
    if (i == 1) continue;
    n += 3;
  }
  return n;
}
