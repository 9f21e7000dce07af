int *f(void) { int x = 5; return &x; }
int main(void) {
int *p = f();
return *p;
}
/* The object of a call ends with it. */
