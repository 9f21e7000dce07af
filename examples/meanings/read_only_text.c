int main(void) { char *s = "a"; s[0] = 98; return 0; }
