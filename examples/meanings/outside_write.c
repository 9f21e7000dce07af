int a[3];
int main(void) {
  for (int i = 0; i < 10; i++) {
    putchar('0' + i);
    a[i] = i;
  }
  return 0;
}
