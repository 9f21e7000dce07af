int f(int n) { return n == 0 ? 0 : 1 + f(n - 1); }
int main(void) { return f(998); }
/* 1,000 activations live at once. */
