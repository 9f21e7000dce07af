int main(void) {
int c;
while ((c = getchar()) != EOF) putchar(c);
return 0;
}
/* The input is empty where none is given. */
