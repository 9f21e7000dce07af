/* An object that ended is told before an offset that it never had. */
int *f(void) { int a[2]; return a + 5; }
int main(void) { return *f(); }
