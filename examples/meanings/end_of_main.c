int main(void) {
  while (1) break;
}
