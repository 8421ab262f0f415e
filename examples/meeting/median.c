/* The median of fifteen bytes, which are the secret: they are sorted in their place, and the middle one is written. */
#include "flowcheck.h"

enum { COUNT = 15 };

int main(void)
{
    unsigned char values[COUNT];
    read_secret(values, COUNT);
    for (int place = 1; place < COUNT; place++)
        for (int at = place; at > 0 && values[at - 1] > values[at]; at--) {
            unsigned char lower = values[at];
            values[at] = values[at - 1];
            values[at - 1] = lower;
        }
    write_output(&values[COUNT / 2], 1);
    return 0;
}
