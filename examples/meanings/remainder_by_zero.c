int main(void) {
  unsigned zero = 0;
  return 1u % zero;
}
