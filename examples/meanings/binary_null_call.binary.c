int call(int (*f)(void)) {
  return f();
}
