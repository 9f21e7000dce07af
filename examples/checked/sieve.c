#include <stdio.h>

/* The primes below 200, by the sieve of Eratosthenes, one a line. */

static unsigned char is_composite[200];

static void print_number(unsigned n) {
  if (n >= 10u) {
    print_number(n / 10u);
  }
  putchar('0' + (int)(n % 10u));
}

int main(void) {
  for (unsigned n = 2u; n < sizeof is_composite; n++) {
    if (is_composite[n]) {
      continue;
    }
    print_number(n);
    putchar('\n');
    for (unsigned m = n * n; m < sizeof is_composite; m += n) {
      is_composite[m] = 1;
    }
  }
  return 0;
}
