int main(void) {
int i = 0;
while (i < 3) i = i + 1;
return i;
}
/* One turn of main, and four arrivals at the condition. */
