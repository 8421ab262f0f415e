/* The first free half hour of a day; 17:00 where there is none. The empty statement keeps a compiler from leaving the
 * mask out, since it could work out that the number is at most 16. */
#include "day.h"

int main(void)
{
    unsigned taken = read_day(), all = 1, first = 0;
    for (int half = 0; half < HALVES; half++) {
        all &= taken >> half;
        first += all;
    }
    __asm__("" : "+r"(first));
    write_time(first & 0x1f);
    return 0;
}
