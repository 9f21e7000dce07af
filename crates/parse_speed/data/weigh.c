static const int table_0[16] = {1, 2, 3, 5, 8, 13, 21, 34, 55, 89, 144, 233, 377, 610, 987, 1597};

/* What a table says of the bits of a number. */
int weigh_0(unsigned int bits, const int *weights) {
    int sum = 0;
    for (int place = 0; place < 16; place++) {
        if (bits >> place & 1u) {
            sum += weights[place] * (place + 1) - table_0[15 - place];
        } else if (sum > 1000 && place % 3 == 0) {
            sum = sum / 2;
        }
    }
    while (sum < 0)
        sum += 997; // A prime.
    return sum == 0 ? -1 : sum;
}
