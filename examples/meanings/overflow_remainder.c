int main(void) { int a = -2147483647 - 1; return a % -1; }
/* The remainder is undefined where the quotient is. */
