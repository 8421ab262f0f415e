/* The PIN pad of echo.c, which shows a star for each key that is typed. */
#include "flowcheck.h"

enum { DIGITS = 4 };

int main(void)
{
    unsigned char pin[DIGITS], typed[DIGITS], difference = 0;
    read_secret(pin, DIGITS);
    read_public(typed, DIGITS);
    for (int place = 0; place < DIGITS; place++) {
        write_output("*", 1);
        difference |= typed[place] ^ pin[place];
    }
    if (difference == 0)
        write_output(" open\n", 6);
    else
        write_output(" wrong\n", 7);
    return 0;
}
