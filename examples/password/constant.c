/* The password check of early.c with the same work for every password: the differences of all letters are collected,
 * and one decision is made of them. */
#include "flowcheck.h"

enum { LENGTH = 8 };

static int is_password(const unsigned char *typed, const unsigned char *password)
{
    unsigned char difference = 0;
    for (int place = 0; place < LENGTH; place++)
        difference |= typed[place] ^ password[place];
    return difference == 0;
}

int main(void)
{
    unsigned char typed[LENGTH], password[LENGTH];
    read_public(typed, LENGTH);
    read_secret(password, LENGTH);
    if (is_password(typed, password))
        write_output("welcome\n", 8);
    else
        write_output("no\n", 3);
    return 0;
}
