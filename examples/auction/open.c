/* A sealed-bid auction. The secret is the bids of four bidders, three digits each. The highest bid wins, and the winner
 * pays the second highest. The public input is the lowest price, three digits too. */
#include "flowcheck.h"

enum { BIDDERS = 4, DIGITS = 3 };

struct result { unsigned winner, price; };

static unsigned number_of(const unsigned char *digits)
{
    return 100 * (digits[0] - '0') + 10 * (digits[1] - '0') + (digits[2] - '0');
}

static struct result settle(const unsigned char *bids, unsigned lowest)
{
    unsigned highest = lowest, winner = 0, price = lowest;
    for (unsigned bidder = 0; bidder < BIDDERS; bidder++) {
        unsigned bid = number_of(bids + DIGITS * bidder);
        if (bid > highest) {
            price = highest;
            highest = bid;
            winner = bidder;
        } else if (bid > price)
            price = bid;
    }
    return (struct result){winner, price};
}

int main(void)
{
    unsigned char lowest[DIGITS], bids[BIDDERS * DIGITS], line[] = "bidder 0 pays 000\n";
    read_public(lowest, sizeof lowest);
    read_secret(bids, sizeof bids);
    struct result result = settle(bids, number_of(lowest));
    line[7] += 1 + result.winner;
    line[14] += result.price / 100;
    line[15] += result.price / 10 % 10;
    line[16] += result.price % 10;
    write_output(line, sizeof line - 1);
    return 0;
}
