/* The free times of a day, as list.c writes them, without a decision on an appointment. */
#include "day.h"

int main(void)
{
    unsigned taken = read_day();
    for (int half = 0; half < HALVES; half++)
        if (!(taken >> half & 1))
            write_time(half);
    return 0;
}
