/* Two objects of two files are never one. */
extern int theirs;
int ours;
int less(int *p) { return p < &ours; }
int main(void) {
  if (&ours != &theirs) putchar('a');
  if (less(&ours)) putchar('!');
  less(&theirs);
  return 0;
}
