/* Lines of comma-separated values, twenty-four letters and the secret, each a name, a comma, digits and a line feed.
 * The sum of the numbers is told modulo 256, or that a line is none. */
#include "flowcheck.h"

enum { LENGTH = 24 };

static char table[LENGTH];

__attribute__((noinline)) static int sum(void)
{
    int total = 0, at = 0;
    while (at < LENGTH) {
        while (at < LENGTH && table[at] != ',')
            if (table[at++] == '\n')
                return 256;
        int value = 0;
        for (at++; at < LENGTH && table[at] != '\n'; at++) {
            if (table[at] < '0' || table[at] > '9')
                return 256;
            value = 10 * value + table[at] - '0';
        }
        total += value;
        at++;
    }
    return total & 255;
}

int main(void)
{
    read_secret(table, LENGTH);
    unsigned told = (unsigned)sum() & 511;
    unsigned char line[2] = {(unsigned char)(told >> 8), (unsigned char)told};
    write_output(line, sizeof line);
    return 0;
}
