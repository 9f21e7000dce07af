int each(int n, int (*f)(int));
int say(int c);
int show(int i) { return say(65 + i); }
int main(void) { return each(3, show); }
