int f(int n) { return n == 0 ? 0 : 1 + f(n - 1); }
int main(void) { return f(999); }
/* The activation 1,001 is one too many; it is told of the function that is called. */
