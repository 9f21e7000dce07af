volatile int port;
int main(void) {
  for (;;)
    ;
}
