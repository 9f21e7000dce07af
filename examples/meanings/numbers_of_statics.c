/* Objects of the file have numbers in the order of their first declarations. */
extern volatile int first;
volatile int second[2] = {7, 8};
int third;
static volatile char fourth = 'a';
volatile int first = 3;
volatile int *p = &second[1];
int main(void) {
  third = second[0] - second[1];
  first;
  fourth++;
  *p = first;
  p = &second[0];
  *p = 2;
  return second[1] + 1;
}
