/* Two things of sixteen bytes, the secret: the place of the greatest of the first eight, and how many of the others in a
 * row are each greater than the one before. Both are worked out by decisions, and have three bits each. */
#include "flowcheck.h"

enum { HALF = 8 };

__attribute__((noinline)) static int greatest(const unsigned char *bytes)
{
    int place = 0;
    for (int at = 1; at < HALF; at++)
        if (bytes[at] > bytes[place])
            place = at;
    return place;
}

__attribute__((noinline)) static int longest(const unsigned char *bytes)
{
    int row = 0, most = 0;
    for (int at = 1; at < HALF; at++) {
        row = bytes[at] > bytes[at - 1] ? row + 1 : 0;
        if (row > most)
            most = row;
    }
    return most;
}

int main(void)
{
    unsigned char bytes[2 * HALF], told[2];
    read_secret(bytes, sizeof bytes);
    told[0] = greatest(bytes) & 7;
    told[1] = longest(bytes + HALF) & 7;
    write_output(told, sizeof told);
    return 0;
}
