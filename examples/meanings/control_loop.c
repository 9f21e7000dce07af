/* A control loop: reads a port, filters, and writes another; the port is an object of the program, so it reads what is
   written here. */
volatile short temperature = 200;
volatile unsigned char heater;
int main(void) {
  short mean = 180;
  int switched = 0;
  for (int round = 0; round < 4; round++) {
    mean = (3 * mean + temperature) / 4;
    if (mean < 190 && !heater) heater = 1, switched++;
    else if (mean > 187 && heater) heater = 0, switched++;
    temperature -= 4;
  }
  return switched;
}
