int main(void) {
  int least = -2147483647 - 1;
  return least /
    -1;
}
