volatile int theirs;
extern volatile int ours;
void work(volatile int *p) {
  volatile int mine = 5;
  ours = *p;
}
