/* The auction of open.c. The winner, two bits, and the price, ten, come out of one function in one word: what happens
 * inside is a region. */
#include "flowcheck.h"

enum { BIDDERS = 4, DIGITS = 3 };

static unsigned number_of(const unsigned char *digits)
{
    return 100 * (digits[0] - '0') + 10 * (digits[1] - '0') + (digits[2] - '0');
}

__attribute__((noinline)) static unsigned settle(const unsigned char *bids, unsigned lowest)
{
    unsigned highest = lowest, winner = 0, price = lowest;
    for (unsigned bidder = 0; bidder < BIDDERS; bidder++) {
        unsigned bid = number_of(bids + DIGITS * bidder);
        if (bid > highest) {
            price = highest;
            highest = bid;
            winner = bidder;
        } else if (bid > price)
            price = bid;
    }
    return winner << 10 | price;
}

int main(void)
{
    unsigned char lowest[DIGITS], bids[BIDDERS * DIGITS], line[] = "bidder 0 pays 000\n";
    read_public(lowest, sizeof lowest);
    read_secret(bids, sizeof bids);
    unsigned result = settle(bids, number_of(lowest)) & 0xfff;
    unsigned winner = result >> 10, price = result & 0x3ff;
    line[7] += 1 + winner;
    line[14] += price / 100;
    line[15] += price / 10 % 10;
    line[16] += price % 10;
    write_output(line, sizeof line - 1);
    return 0;
}
