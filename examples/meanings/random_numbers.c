/* A register of 16 bits that is shifted by the sum of four of its bits, and a generator that wraps. */
void digits(int n) {
  if (n <= -10) digits(n / 10);
  putchar('0' - n % 10);
}
void print(int n) {
  if (n < 0) putchar('-');
  digits(n < 0 ? n : -n);
  putchar(' ');
}
void unsigned_digits(unsigned n) {
  if (n >= 10) unsigned_digits(n / 10);
  putchar('0' + n % 10);
}
void print_unsigned(unsigned n) {
  unsigned_digits(n);
  putchar(' ');
}
int main(void) {
  unsigned short bits = 0xace1;
  int period = 0;
  do {
    unsigned bit = (bits ^ bits >> 2 ^ bits >> 3 ^ bits >> 5) & 1;
    bits = bits >> 1 | bit << 15;
    period++;
  } while (bits != 0xace1);
  print(period);
  unsigned seed = 1;
  for (int i = 0; i < 4; i++) {
    seed = seed * 1103515245u + 12345u;
    print_unsigned(seed >> 16 & 32767);
  }
  return 0;
}
