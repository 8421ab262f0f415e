/* Sixteen bytes, the secret, are compressed: a run of equal bytes becomes two. What is told is the length. */
#include "flowcheck.h"

enum { LENGTH = 16 };

static unsigned char bytes[LENGTH];

__attribute__((noinline)) static int length(void)
{
    int runs = 1;
    for (int place = 1; place < LENGTH; place++)
        runs += bytes[place] != bytes[place - 1];
    return 2 * runs;
}

int main(void)
{
    read_secret(bytes, LENGTH);
    exit_with(length() & 63);
}
