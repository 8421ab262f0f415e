/* Counts the bytes of the secret that are above a limit, and keeps which ones they are in the bits of a number. So each
 * of its decisions leaves two states for each one before. */
#include "flowcheck.h"

enum { COUNT = 24, LIMIT = 100 };

int main(void)
{
    unsigned char values[COUNT];
    unsigned kept = 0;
    read_secret(values, COUNT);
    for (int at = 0; at < COUNT; at++) {
        kept *= 2;
        if (values[at] > LIMIT) {
            kept++;
            __asm__ volatile("");
        }
    }
    return kept > 12000;
}
