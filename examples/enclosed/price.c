/* Sixteen bids of one byte, the secret, are sorted by quicksort, and the second price is printed in decimal. */
#include "flowcheck.h"

enum { COUNT = 16 };

static unsigned char bids[COUNT] __attribute__((aligned(COUNT)));
static unsigned char firsts[COUNT], lasts[COUNT];

/* The price, after a sort that keeps the parts that are left on a stack of its own. */
__attribute__((noinline)) static int second_price(void)
{
    int depth = 1;
    firsts[0] = 0;
    lasts[0] = COUNT - 1;
    while (depth > 0) {
        depth--;
        int first = firsts[depth & 15], last = lasts[depth & 15], low = first;
        if (first >= last)
            continue;
        unsigned char pivot = bids[last & 15];
        for (int at = first; at < last; at++)
            if (bids[at & 15] < pivot) {
                unsigned char kept = bids[at & 15];
                bids[at & 15] = bids[low & 15];
                bids[low & 15] = kept;
                low++;
            }
        bids[last & 15] = bids[low & 15];
        bids[low & 15] = pivot;
        firsts[depth & 15] = (unsigned char)first;
        lasts[depth & 15] = (unsigned char)(low > first ? low - 1 : first);
        depth++;
        firsts[depth & 15] = (unsigned char)(low < last ? low + 1 : last);
        lasts[depth & 15] = (unsigned char)last;
        depth++;
    }
    return bids[COUNT - 2];
}

int main(void)
{
    read_secret(bids, COUNT);
    unsigned price = (unsigned)second_price() & 255;
    unsigned char line[3];
    for (int place = 2; place >= 0; place--, price /= 10)
        line[place] = (unsigned char)('0' + price % 10);
    write_output(line, sizeof line);
    return 0;
}
