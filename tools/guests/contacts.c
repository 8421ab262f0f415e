/* How many numbers two people both have: eight of one, the public input, and eight of the other, the secret, both in
 * ascending order. They are gone through side by side, and a digit is written. */
#include "flowcheck.h"

enum { COUNT = 8 };

__attribute__((noinline)) static int shared(const unsigned char *mine, const unsigned char *other)
{
    int at = 0, place = 0, both = 0;
    while (at < COUNT && place < COUNT)
        if (mine[at] == other[place])
            both++, at++, place++;
        else if (mine[at] < other[place])
            at++;
        else
            place++;
    return both;
}

int main(void)
{
    unsigned char mine[COUNT], other[COUNT], digit;
    read_public(mine, COUNT);
    read_secret(other, COUNT);
    digit = '0' + shared(mine, other);
    write_output(&digit, 1);
    return 0;
}
