/* A tally. The secret is fifteen votes, a letter each: A, B, or any other for none. Which of the two has more is written,
 * or that they have as many. */
#include "flowcheck.h"

enum { VOTES = 15 };

int main(void)
{
    unsigned char votes[VOTES];
    int for_a = 0, for_b = 0;
    read_secret(votes, VOTES);
    for (int at = 0; at < VOTES; at++)
        if (votes[at] == 'A')
            for_a++;
        else if (votes[at] == 'B')
            for_b++;
    if (for_a > for_b)
        write_output("A\n", 2);
    else if (for_b > for_a)
        write_output("B\n", 2);
    else
        write_output("as many\n", 8);
    return 0;
}
