/* The tally of votes.c, which also keeps of each vote whether it is for A, and needs it no more. */
#include "flowcheck.h"

enum { VOTES = 15 };

static volatile unsigned char is_for_a[VOTES];

int main(void)
{
    unsigned char votes[VOTES];
    int for_a = 0, for_b = 0;
    read_secret(votes, VOTES);
    for (int at = 0; at < VOTES; at++)
        if (votes[at] == 'A') {
            is_for_a[at] = 1;
            for_a++;
        } else if (votes[at] == 'B')
            for_b++;
    if (for_a > for_b)
        write_output("A\n", 2);
    else if (for_b > for_a)
        write_output("B\n", 2);
    else
        write_output("as many\n", 8);
    return 0;
}
