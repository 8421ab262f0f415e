/* Whether two bytes, the secret, have a common divisor: by remainders, each divided by the one before it. */
#include "flowcheck.h"

int main(void)
{
    unsigned char bytes[2] = {0};
    read_secret(bytes, sizeof bytes);
    unsigned first = bytes[0], second = bytes[1];
    while (second) {
        unsigned rest = first % second;
        first = second;
        second = rest;
    }
    if (first > 1)
        write_output("yes\n", 4);
    else
        write_output("no\n", 3);
    return 0;
}
