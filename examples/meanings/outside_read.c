int a[4];
int main(void) {
int *p = &a[4];
return *p;
}
/* A pointer may stand behind the last element, and may not be used there. */
