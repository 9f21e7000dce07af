/* The line is that of the operator. */
int main(void) {
  int least = -2147483647;
  least = least - 1;
  putchar('a');
  return least
    -
    1;
}
