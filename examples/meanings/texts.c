/* Texts, as pointers and as the beginnings of arrays. */
void digits(int n) {
  if (n <= -10) digits(n / 10);
  putchar('0' - n % 10);
}
void print(int n) {
  if (n < 0) putchar('-');
  digits(n < 0 ? n : -n);
  putchar(' ');
}
void put(const char *s) { while (*s) putchar(*s++); }
int length(const char *s) { int n = 0; while (s[n]) n++; return n; }
char whole[] = "abc";
char part[2] = "xy";
char longer[5] = "z";
unsigned char bytes[] = "\200\xff";
signed char more[] = "\200";
char rows[2][4] = {"one", "two"};
const char *names[] = {"first", "second" "part", ""};
int main(void) {
  put("joined " "text\n");
  print(length("abc\0def"));
  print(sizeof("abc\0def"));
  print("abc"[1]);
  print(*"xyz");
  print(*("xyz" + 2));
  print(sizeof whole);
  print(part[0] + part[1]);
  print(longer[0] + longer[1] + longer[4]);
  print(bytes[0]);
  print(bytes[1]);
  print(bytes[2]);
  print(more[0]);
  print("\377"[0]);
  put(rows[1]);
  put(names[0]);
  put(names[1]);
  put(names[2]);
  whole[1] = 'B';
  put(whole);
  char local[] = "local", *s = local;
  *s++ = 'L';
  s[0]++;
  put(local);
  put(1 ? "yes" : "no");
  put(&"skip this"[5]);
  return 0;
}
