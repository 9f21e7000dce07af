/* 20,000 objects begin and end, one after another, while one of them all stays. */
int main(void) {
  int sum = 0, *p = &sum;
  for (int i = 0; i < 20000; i++) {
    int x = i, *q = &x;
    *p = (*p + *q) % 1000;
  }
  return *p % 256 + 160;
}
