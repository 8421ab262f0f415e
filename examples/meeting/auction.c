/* An open auction. The secret is the most that each of eight bidders would pay, a byte each. The price rises in sixteen
 * steps, and at each of them all say whether they go on. Who goes on alone has won, and the winner and the step are
 * written; where two or more stay to the end, or all leave at once, nothing is sold. */
#include "flowcheck.h"

enum { BIDDERS = 8, STEPS = 16, STEP = 12 };

int main(void)
{
    unsigned char most[BIDDERS], line[] = "bidder 1 at step a\n";
    read_secret(most, BIDDERS);
    for (int step = 1; step <= STEPS; step++) {
        int staying = 0, last = 0;
        for (int bidder = 0; bidder < BIDDERS; bidder++)
            if (most[bidder] >= step * STEP) {
                staying = staying < 2 ? staying + 1 : 2;
                last = bidder;
            }
        if (staying == 1) {
            line[7] += last;
            line[17] += step - 1;
            write_output(line, sizeof line - 1);
            return 0;
        }
        if (staying == 0)
            break;
    }
    write_output("not sold\n", 9);
    return 1;
}
