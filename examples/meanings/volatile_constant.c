/* A const volatile object can be read. */
const volatile int port = 9;
int main(void) {
  const volatile int *p = &port;
  return *p;
}
