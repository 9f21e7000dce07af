/* All locals of a block begin with it, also those behind a return. */
int main(void) {
  for (int i = 1; i < 20; i++) {
    if (i == 1) continue;
    putchar('a' + i);
    int a[65535], b[65535], c[65535], d[65535], e[65535], f[65535], g[65535], h[65535];
    int j[65535], k[65535], l[65535], m[65535], n[65535], o[65535], p[65535], q[65535],
      r[65535];
  }
  return 0;
}
