int main(void) {
  char *s = "abc";
  s[4] = 'd';
  return 0;
}
