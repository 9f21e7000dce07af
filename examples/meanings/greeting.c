#include <stdio.h>
/* greet */
int main(void) {
const char *s = "hello\n"; // text
while (*s) putchar(*s++);
return 0;
}
