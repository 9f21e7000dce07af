/* Both are used up at the call 1,001, and the activations are looked at first. */
int f(int n) {
  return f(n + 1);
}
int main(void) { return f(0); }
