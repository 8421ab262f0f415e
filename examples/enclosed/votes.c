/* Twenty-four ballots, the secret, each for one of four candidates. They are counted, and the winner is told; of equals
 * the first wins. */
#include "flowcheck.h"

enum { BALLOTS = 24, CANDIDATES = 4 };

static unsigned char ballots[BALLOTS];
static unsigned char counts[CANDIDATES] __attribute__((aligned(CANDIDATES)));

__attribute__((noinline)) static int winner(void)
{
    int best = 0;
    for (int place = 0; place < BALLOTS; place++)
        counts[ballots[place] & 3]++;
    for (int candidate = 1; candidate < CANDIDATES; candidate++)
        if (counts[candidate] > counts[best & 3])
            best = candidate;
    return best;
}

int main(void)
{
    read_secret(ballots, BALLOTS);
    return winner() & 3;
}
