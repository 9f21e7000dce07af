/* One turn of main, and one of each arrival at the body. */
int main(void) {
  int n = 0;
  do n++; while (n < 3);
  return n;
}
