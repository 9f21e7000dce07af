/* 46,341 squared is one of the first products that an int does not hold. */
int main(void) {
  int a = 46341;
  return a * a;
}
