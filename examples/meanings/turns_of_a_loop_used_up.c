int main(void) {
int i = 0;
while (i < 3) i = i + 1;
return i;
}
/* The fifth turn is one too many. */
