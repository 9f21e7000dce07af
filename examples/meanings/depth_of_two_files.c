/* Each file has 1,000 live activations of its own: here main and 999 of f, and there 999 of g. */
int g(int n);
int f(int n) { return n == 0 ? 0 : g(n - 1); }
int main(void) { return f(1997) + 207; }
