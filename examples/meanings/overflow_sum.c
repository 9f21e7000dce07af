int main(void) {
int x = 2147483647; putchar(79);
x = x + 1;
return x;
}
/* What came before is written. */
