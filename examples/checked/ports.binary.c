/* The mean of the last readings, each of which counts a quarter. */
short filtered(short before, short now) { return (short)((3 * before + now) / 4); }
