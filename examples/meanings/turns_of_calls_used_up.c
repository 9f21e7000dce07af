int f(int n) { return n; }
int main(void) {
int (*p)(int) = f;
return p(1) + p(2);
}
