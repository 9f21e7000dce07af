/* A program with a fault is refused before anything runs. */
int main(void) {
  putchar('a');
  return x;
}
