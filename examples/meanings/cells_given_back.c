/* A block gives its cells back when it is left, in any way. */
int n;
int f(int i) {
  int a[65535];
  a[i] = 1;
  if (i % 2) return a[i];
  { int b[65535]; b[i] = 1; return b[i]; }
}
int main(void) {
  for (int i = 0; i < 20; i++) {
    int a[65535];
    a[i]++;
    n += a[i];
    if (i % 3 == 0) continue;
    int b[65535];
    b[n] = 1;
    f(i);
  }
  while (1) { int a[65535]; if (a[n]) return 1; break; }
  for (int i = 0; i < 20; i++) for (int a[65535], j = 0; j < 1; j++) a[j] = i;
  return n;
}
