/* Elements of volatile arrays, and objects that only a pointer calls volatile. */
volatile int a[2][3] = {{1, 2, 3}, {4}};
int plain = 5;
int main(void) {
  volatile int *p = &plain, *q = a[1];
  a[1][2] = a[0][1];
  *p = *q++;
  plain = 7;
  p[0]--;
  *q = plain;
  ++*q;
  *q++ += 2;
  *q = *(q - 2);
  a[0][0]++;
  int i = 0;
  a[i++][i++]--;
  return plain;
}
