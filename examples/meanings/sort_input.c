/* Sorts the bytes of the input. */
void sort(unsigned char *from, unsigned char *to) {
  if (to - from < 2) return;
  unsigned char *low = from, *high = to - 1, middle = from[(to - from) / 2];
  while (low <= high) {
    while (*low < middle) low++;
    while (*high > middle) high--;
    if (low <= high) {
      unsigned char c = *low;
      *low++ = *high;
      *high-- = c;
    }
  }
  sort(from, high + 1);
  sort(low, to);
}
unsigned char room[100];
int main(void) {
  int n = 0, c;
  while (n < 100 && (c = getchar()) != EOF) room[n++] = c;
  sort(room, room + n);
  for (int i = 0; i < n; i++) putchar(room[i]);
  return n;
}
