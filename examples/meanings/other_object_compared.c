int a; int b;
int main(void) { return &a < &b; }
