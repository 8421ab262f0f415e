/* The check of a card's number by Luhn. The secret is its sixteen digits. Each second one is doubled, less nine where
 * that has two digits, and the sum must end with 0. */
#include "flowcheck.h"

enum { DIGITS = 16 };

int main(void)
{
    unsigned char card[DIGITS];
    unsigned sum = 0;
    read_secret(card, DIGITS);
    for (int at = 0; at < DIGITS; at++) {
        unsigned digit = card[at] - '0';
        if (digit > 9)
            return 2;
        if (at % 2 == 0) {
            digit *= 2;
            if (digit > 9)
                digit -= 9;
        }
        sum += digit;
        if (sum >= 10)
            sum -= 10;
    }
    return sum != 0;
}
