/* Sixteen bids of one byte, the secret, are sorted by insertion, and the second price is the exit status. */
#include "flowcheck.h"

enum { COUNT = 16 };

static unsigned char bids[COUNT] __attribute__((aligned(COUNT)));

__attribute__((noinline)) static int second_price(void)
{
    for (int place = 1; place < COUNT; place++)
        for (int at = place; at > 0 && bids[at - 1] > bids[at]; at--) {
            unsigned char lower = bids[at];
            bids[at] = bids[at - 1];
            bids[at - 1] = lower;
        }
    return bids[COUNT - 2];
}

int main(void)
{
    read_secret(bids, COUNT);
    exit_with(second_price());
}
