/* The count is tested before the number that is shifted. */
int main(void) {
  int m = -1;
  return m << m;
}
