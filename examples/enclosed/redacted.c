/* A line of twenty letters, the secret, in which each digit becomes a star before it is written. It is told as well
 * whether there was a digit. */
#include "flowcheck.h"

enum { LENGTH = 20 };

static char line[LENGTH];

__attribute__((noinline)) static int redact(void)
{
    int found = 0;
    for (int place = 0; place < LENGTH; place++)
        if (line[place] >= '0' && line[place] <= '9') {
            line[place] = '*';
            found = 1;
        }
    return found;
}

int main(void)
{
    read_secret(line, LENGTH);
    exit_with(redact());
}
