/* Counts the bytes of the secret that are above a limit, and keeps for each whether it is. So each of its decisions
 * leaves two states for each one before. */
#include "flowcheck.h"

enum { COUNT = 24, LIMIT = 100 };

int main(void)
{
    unsigned char values[COUNT], high[COUNT];
    int count = 0;
    read_secret(values, COUNT);
    for (int at = 0; at < COUNT; at++) {
        high[at] = 0;
        if (values[at] > LIMIT) {
            high[at] = 1;
            __asm__ volatile("" : : : "memory");
        }
    }
    for (int at = 0; at < COUNT; at++)
        count += high[at];
    return count > 12;
}
