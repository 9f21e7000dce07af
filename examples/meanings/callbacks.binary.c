int say(int c) { putchar(c); return 1; }
int each(int n, int (*f)(int)) {
int s = 0;
for (int i = 0; i < n; i++) s += f(i);
return s;
}
/* A function of the binary file calls one of the main file, which calls one of the binary file. */
