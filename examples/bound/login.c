/* A login with three tries. The secret is a password of eight letters, the public input is what somebody types, eight
 * letters for each try. The guest answers "welcome" as soon as a try is right and "no" where one is not, and after
 * three of these "locked". The exit status is the number of tries. */
#include "flowcheck.h"

enum { LENGTH = 8, TRIES = 3 };

static int is_password(const unsigned char *typed, const unsigned char *password)
{
    unsigned char difference = 0;
    for (int place = 0; place < LENGTH; place++)
        difference |= typed[place] ^ password[place];
    return difference == 0;
}

int main(void)
{
    unsigned char typed[LENGTH], password[LENGTH];
    int tries = 0;
    read_secret(password, LENGTH);
    while (tries < TRIES && read_public(typed, LENGTH) == LENGTH) {
        tries++;
        if (is_password(typed, password)) {
            write_output("welcome\n", 8);
            return tries;
        }
        write_output("no\n", 3);
    }
    write_output("locked\n", 7);
    return tries;
}
