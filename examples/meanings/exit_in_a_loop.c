volatile int port;
int main(void) {
  for (int i = 0; ; i++) {
    i < 3 ? (void)(port = i) : exit(i);
  }
}
