/* continue goes on with the condition of a do, and with the step of a for. */
int main(void) {
  int i = 0;
  do {
    putchar('a' + i);
    if (i < 3) continue;
    putchar('.');
  } while (++i < 5);
  for (i = 0; i < 5; putchar('s'), i++) {
    if (i % 2) continue;
    putchar('0' + i);
  }
  do continue; while (0);
  do break; while (1);
  return 0;
}
