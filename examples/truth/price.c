/* A price: a base of 20 and the secret, a byte, of which the lowest five bits are the margin; the price is printed. */
#include "flowcheck.h"

static void print(unsigned number)
{
    char digits[10];
    int place = sizeof digits;
    do {
        digits[--place] = '0' + number % 10;
        number /= 10;
    } while (number);
    write_output(digits + place, sizeof digits - place);
}

int main(void)
{
    unsigned char margin = 0;
    read_secret(&margin, 1);
    print(20 + 5 * (margin & 31));
    write_output(" crowns\n", 8);
    return 0;
}
