/* 1,048,576 cells live at most: 16 arrays of the file, s, its text, and here an array and x. */
int a0[65535], a1[65535], a2[65535], a3[65535], a4[65535], a5[65535], a6[65535], a7[65535];
int a8[65535], a9[65535], b0[65535], b1[65535], b2[65535], b3[65535], b4[65535], b5[65535];
char *s = "0123456789";
int main(void) {
  int some[3], x = 7, *p = &x;
  *p = 7;
  some[2] = b5[65534];
  putchar('0' + *p + some[2]);
  return 0;
}
