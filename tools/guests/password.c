/* A password of eight letters, the secret, beside what somebody types, the public input. The check ends at the first
 * letter that differs, and says whether it is right and whether it begins right. */
#include "flowcheck.h"

enum { LENGTH = 8 };

__attribute__((noinline)) static int right_letters(const unsigned char *typed, const unsigned char *password)
{
    for (int place = 0; place < LENGTH; place++)
        if (typed[place] != password[place])
            return place;
    return LENGTH;
}

int main(void)
{
    unsigned char typed[LENGTH], password[LENGTH];
    read_public(typed, LENGTH);
    read_secret(password, LENGTH);
    int right = right_letters(typed, password);
    if (right == LENGTH)
        write_output("welcome\n", 8);
    else if (right > 0)
        write_output("nearly\n", 7);
    else
        write_output("no\n", 3);
    return 0;
}
