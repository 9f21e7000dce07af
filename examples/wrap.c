int main(void) {
  putchar(321);
  putchar(266);
  return 300;
}
