/* The objects of the other file have numbers of their own, from 134217728 on; those of one file are no objects of the other. */
volatile int ours;
extern volatile int theirs;
void work(volatile int *p);
int main(void) {
  ours = 1;
  theirs = 2;
  volatile int local = 3;
  work(&local);
  volatile int next = 4;
  work(&theirs);
  return 0;
}
