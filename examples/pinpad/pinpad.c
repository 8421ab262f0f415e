/* A PIN pad with three tries. The secret is the PIN, four digits. The public input is what somebody types, four keys for
 * each try. The pad opens as soon as a try is right, and is locked after three that are wrong. */
#include "flowcheck.h"

enum { DIGITS = 4, TRIES = 3 };

static int is_pin(const unsigned char *typed, const unsigned char *pin)
{
    unsigned char difference = 0;
    for (int place = 0; place < DIGITS; place++)
        difference |= typed[place] ^ pin[place];
    return difference == 0;
}

int main(void)
{
    unsigned char pin[DIGITS], typed[DIGITS];
    read_secret(pin, DIGITS);
    for (int tries = 0; tries < TRIES && read_public(typed, DIGITS) == DIGITS; tries++) {
        if (is_pin(typed, pin)) {
            write_output("open\n", 5);
            return 0;
        }
        write_output("wrong\n", 6);
    }
    write_output("locked\n", 7);
    return 1;
}
