/* A sale by sealed bids: four bids of 0 to 15, one a byte; the highest wins, the first of equal ones, and pays what
 * the second bids. The winner and the price are written as two letters. */
#include "flowcheck.h"

int main(void)
{
    unsigned char bids[4] = {0}, best = 0, second = 0, winner = 0;
    read_secret(bids, sizeof bids);
    for (int bidder = 0; bidder < 4; bidder++) {
        unsigned char bid = bids[bidder] & 15;
        if (bidder == 0 || bid > best) {
            second = best;
            best = bid;
            winner = bidder;
        } else if (bid > second) {
            second = bid;
        }
    }
    char line[3] = {(char)('A' + winner), (char)('a' + second), '\n'};
    write_output(line, 3);
    return 0;
}
