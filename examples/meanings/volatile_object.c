volatile int port;
int main(void) { port = 5; return port; }
/* Each access is an event: of object 1, at offset 0. */
