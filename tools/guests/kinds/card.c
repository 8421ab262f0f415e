/* The check digit of a card's number of twelve digits, by a table of what a digit counts where it is doubled. */
#include "flowcheck.h"

static const unsigned char doubled[10] = {0, 2, 4, 6, 8, 1, 3, 5, 7, 9};

int main(void)
{
    char number[12] = {0};
    unsigned sum = 0;
    read_secret(number, sizeof number);
    for (int place = 0; place < 12; place++) {
        unsigned digit = number[place] - '0';
        if (digit > 9) {
            write_output("no number\n", 10);
            return 2;
        }
        sum += place % 2 ? digit : doubled[digit];
    }
    if (sum % 10)
        write_output("wrong\n", 6);
    else
        write_output("right\n", 6);
    return 0;
}
