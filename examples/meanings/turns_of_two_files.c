/* Each file has turns of its own: here 1 of main and 6 of the loop, and there 5 calls and 2 in the loop. */
int f(int n);
int main(void) {
  int s = 0;
  for (int i = 0; i < 5; i++) s += f(i);
  return s;
}
