static int main(void) { return 'b'; }
int call(void) { return main(); }
