/* The remainder by a polynomial, of 32 bits, of the input; each byte of it is written as two digits. */
unsigned table[256];
int main(void) {
  for (unsigned i = 0; i < 256; i++) {
    unsigned r = i;
    for (int k = 0; k < 8; k++) r = r & 1 ? r >> 1 ^ 0xedb88320 : r >> 1;
    table[i] = r;
  }
  unsigned sum = -1;
  for (int c; (c = getchar()) != EOF;) sum = sum >> 8 ^ table[(sum ^ c) & 255];
  sum = ~sum;
  for (int k = 28; k >= 0; k -= 4) putchar("0123456789abcdef"[sum >> k & 15]);
  return sum >> 24;
}
