/* A sealed-bid auction with a price that is printed. The secret is the bids of eight bidders, four bytes each, the lowest
 * first. The highest bid wins, and the winner pays the second highest, which is written in decimal digits. */
#include "flowcheck.h"

enum { BIDDERS = 8, DIGITS = 12 };

int main(void)
{
    uint32_t bids[BIDDERS], highest = 0, price = 0;
    char line[] = "bidder 1 pays", digits[DIGITS + 2];
    unsigned winner = 0, at = DIGITS + 1;
    read_secret(bids, sizeof bids);
    for (unsigned bidder = 0; bidder < BIDDERS; bidder++)
        if (bids[bidder] > highest) {
            price = highest;
            highest = bids[bidder];
            winner = bidder;
        } else if (bids[bidder] > price)
            price = bids[bidder];
    digits[at] = '\n';
    do {
        digits[--at] = '0' + price % 10;
        price /= 10;
    } while (price > 0);
    digits[--at] = ' ';
    line[7] += winner;
    write_output(line, sizeof line - 1);
    write_output(digits + at, sizeof digits - at);
    return 0;
}
