int twice(int n) { return 2 * n; }
int thrice(int n) { return 3 * n; }
int (*stored)(int) = thrice;
int (*choose(int n))(int) { return n == 2 ? twice : n == 3 ? thrice : NULL; }
int apply(int (*f)(int), int n) { return f ? f(n) : stored(n); }
int same(int (*f)(int), int (*g)(int)) { return f == g; }
