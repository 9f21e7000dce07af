/* Two numbers of unsigned short are multiplied as int. */
int main(void) {
  unsigned short u = 65535;
  unsigned n = u;
  n = n * n;
  putchar('0' + n);
  n =
    u * u;
  return n;
}
