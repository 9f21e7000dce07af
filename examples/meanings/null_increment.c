char *p;
int main(void) {
  p++;
  return 0;
}
