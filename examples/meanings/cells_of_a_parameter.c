/* main has a call first, since all of its locals begin with it. */
int a0[65535], a1[65535], a2[65535], a3[65535], a4[65535], a5[65535], a6[65535], a7[65535];
int a8[65535], a9[65535], b0[65535], b1[65535], b2[65535], b3[65535], b4[65535], b5[65535];
char *s = "0123456789";
int f(int in_a_register,
  int n) { return *&n; }
int main(void) {
  int some[3];
  putchar('0' + f(0, 7));
  {
    int x, *p = &x;
    putchar('b');
    return f(0, 7);
  }
}
