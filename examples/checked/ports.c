/* A control loop over two ports of a device: the temperature is read, and the heater is switched so that it stays
   between two bounds. Filtering is done by a function of a library, which is in a file of its own. */

volatile unsigned char temperature;
volatile unsigned char heater;

short filtered(short before, short now);

static const short low = 180, high = 220;

int main(void) {
  short mean = 200;
  for (int round = 0; round < 1000; round++) {
    mean = filtered(mean, temperature);
    if (mean < low) {
      heater = 1;
    } else if (mean > high) {
      heater = 0;
    }
  }
  heater = 0;
  return 0;
}
