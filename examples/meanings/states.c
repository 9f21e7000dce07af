/* A machine whose states are functions that give the next one. It leaves out comments. */
int in, last;
int (*state)(void);
int code(void);
int comment(void);
int slash(void) {
  if (in == '*') {
    state = comment;
    last = 0;
    return 0;
  }
  putchar('/');
  state = code;
  return code();
}
int comment(void) {
  if (last == '*' && in == '/') {
    putchar(' ');
    state = code;
  }
  last = in;
  return 1;
}
int code(void) {
  if (in == '/') state = slash;
  else putchar(in);
  return state == slash;
}
int main(void) {
  state = code;
  while ((in = getchar()) != EOF) state();
  return state == code ? 0 : 1;
}
