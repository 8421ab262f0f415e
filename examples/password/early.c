/* A password check that stops at the first letter that differs. The secret is the password, the public input is what
 * somebody types. */
#include "flowcheck.h"

enum { LENGTH = 8 };

static int is_password(const unsigned char *typed, const unsigned char *password)
{
    for (int place = 0; place < LENGTH; place++)
        if (typed[place] != password[place])
            return 0;
    return 1;
}

int main(void)
{
    unsigned char typed[LENGTH], password[LENGTH];
    read_public(typed, LENGTH);
    read_secret(password, LENGTH);
    if (is_password(typed, password))
        write_output("welcome\n", 8);
    else
        write_output("no\n", 3);
    return 0;
}
