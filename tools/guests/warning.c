/* An early warning. Five readings of a patient, a byte each, are the secret: breaths a minute, oxygen in percent, upper
 * pressure, pulse, and tenths of a degree above 30. Each scores 0 to 3, more if it is further from the usual, and one of
 * three words is written. */
#include "flowcheck.h"

enum { BREATHS, OXYGEN, PRESSURE, PULSE, WARMTH, COUNT };

/* The score of a reading: the limits ascend, and between the third and the fourth a reading is usual. */
__attribute__((noinline)) static int score(unsigned reading, const unsigned char *limits)
{
    if (reading < limits[2])
        return reading < limits[0] ? 3 : reading < limits[1] ? 2 : 1;
    if (reading > limits[3])
        return reading > limits[5] ? 3 : reading > limits[4] ? 2 : 1;
    return 0;
}

int main(void)
{
    static const unsigned char limits[COUNT][6] = {
        [BREATHS] = {9, 10, 12, 20, 22, 24},
        [OXYGEN] = {92, 94, 96, 100, 100, 100},
        [PRESSURE] = {91, 101, 111, 219, 219, 219},
        [PULSE] = {41, 46, 51, 90, 110, 130},
        [WARMTH] = {51, 56, 61, 80, 90, 100},
    };
    unsigned char readings[COUNT];
    int total = 0;
    read_secret(readings, COUNT);
    for (int place = 0; place < COUNT; place++)
        total += score(readings[place], limits[place]);
    if (total >= 7)
        write_output("now\n", 4);
    else if (total >= 5)
        write_output("soon\n", 5);
    else
        write_output("later\n", 6);
    return 0;
}
