/* A keypad: the public input is a name of eight letters, which is echoed, and then three tries of a PIN of four digits,
 * the secret. After three wrong ones the pad is locked. */
#include "flowcheck.h"

static int is_pin(const char *tried, const char *pin)
{
    for (int digit = 0; digit < 4; digit++)
        if (tried[digit] != pin[digit])
            return 0;
    return 1;
}

int main(void)
{
    char name[8] = {0}, tried[4], pin[4] = {0};
    read_public(name, sizeof name);
    read_secret(pin, sizeof pin);
    for (int tries = 3; tries > 0; tries--) {
        if (read_public(tried, sizeof tried) < 4)
            break;
        if (is_pin(tried, pin)) {
            write_output("welcome ", 8);
            write_output(name, sizeof name);
            write_output("\n", 1);
            return 3 - tries;
        }
        write_output("wrong\n", 6);
    }
    write_output("locked\n", 7);
    return 3;
}
