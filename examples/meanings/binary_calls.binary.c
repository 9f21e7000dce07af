static int hidden = 2, count;
static int help(void) { return hidden; }
int theirs[3] = {1, 2, 3}, length = 3;
extern int ours;
int add(int a, int b) { return a + b; }
char narrow(int n) { return n; }
unsigned wide(unsigned char u) { return u; }
_Bool truth(int *p) { return p; }
void nothing(void) { ours++; }
int *element(int *p, int i) { return &p[i]; }
const char *text(void) { return "text "; }
int both(void) { return help(); }
int bump(void) { return ++count; }
