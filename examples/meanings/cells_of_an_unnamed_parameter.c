/* A volatile parameter is an object, with or without a name. */
int a0[65535], a1[65535], a2[65535], a3[65535], a4[65535], a5[65535], a6[65535], a7[65535];
int a8[65535], a9[65535], b0[65535], b1[65535], b2[65535], b3[65535], b4[65535], b5[65535];
int f(int,
  volatile
  int) { return 7; }
int main(void) {
  int some[15];
  putchar('0' + f(1, 2));
  int x[1];
  return f(1, 2);
}
