/* Lines of this file are told as its own. */
int divide(int a, int b) {
  return a
    / b;
}
