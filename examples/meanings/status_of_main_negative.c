int main(void) {
  for (;;) {
    { return -1; }
  }
}
