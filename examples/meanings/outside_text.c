int main(void) {
  const char *s = "abc";
  for (;; s++) putchar('0' + (*s == 0));
}
