int main(void) {
  int a[2] = {-2147483647 - 1, 0};
  a[1]--;
  --a[0];
  return 0;
}
