/* One turn of main, one of each of four arrivals at the condition. */
int main(void) {
  int n = 0;
  for (int i = 0; i < 3; i++) {
    if (i == 1) continue;
    n += 3;
  }
  return n;
}
