/* main has the only turn; the functions that are known beforehand take none. */
int main(void) {
  putchar('a');
  getchar();
  exit(0);
}
