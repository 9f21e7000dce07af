#include <stdio.h>

/* Sorts words by a comparison that is handed in, and prints them up and down. */

static const char *words[] = {"pear", "fig", "apple", "lemon", "kiwi", "plum"};

static int compare(const char *a, const char *b) {
  while (*a && *a == *b) {
    a++;
    b++;
  }
  return *a - *b;
}

static int compare_down(const char *a, const char *b) { return compare(b, a); }

static void sort(const char **row, int length, int order(const char *, const char *)) {
  for (int i = 1; i < length; i++) {
    const char *taken = row[i];
    int k = i;
    while (k > 0 && order(row[k - 1], taken) > 0) {
      row[k] = row[k - 1];
      k--;
    }
    row[k] = taken;
  }
}

static void print(const char *text) {
  while (*text) {
    putchar(*text++);
  }
  putchar('\n');
}

int main(void) {
  int (*orders[2])(const char *, const char *) = {compare, compare_down};
  const int length = (int)(sizeof words / sizeof words[0]);
  for (int i = 0; i < 2; i++) {
    sort(words, length, orders[i]);
    for (int k = 0; k < length; k++) {
      print(words[k]);
    }
  }
  return 0;
}
