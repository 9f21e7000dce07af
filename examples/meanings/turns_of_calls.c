int f(int n) { return n; }
int main(void) {
int (*p)(int) = f;
return p(1) + p(2);
}
/* One turn of main, and one of each call. */
