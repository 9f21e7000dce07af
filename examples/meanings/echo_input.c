int main(void) {
int c;
while ((c = getchar()) != EOF) putchar(c);
return 0;
}
/* Writes what it reads; a byte of 255 is told from the end of the input. */
