/* A pattern of eight letters, the public input, in which a dot stands for any letter and a star for any number of the
 * letter before it: does it match the whole of a text of eight letters, the secret? */
#include "flowcheck.h"

enum { LENGTH = 8 };

static char pattern[LENGTH + 1], text[LENGTH + 1];
static unsigned char now[16] __attribute__((aligned(16))), next[16] __attribute__((aligned(16)));

/* The places of the pattern that a walk may stand at, without reading a letter. */
static void spread(unsigned char *places)
{
    for (int place = 0; place < LENGTH; place++)
        if (places[place] && pattern[place + 1] == '*')
            places[place + 2] = 1;
}

__attribute__((noinline)) static int matches(void)
{
    now[0] = 1;
    spread(now);
    for (int at = 0; at < LENGTH; at++) {
        for (int place = 0; place < 16; place++)
            next[place] = 0;
        for (int place = 0; place < LENGTH; place++) {
            int fits = now[place] & (pattern[place] == '.' || pattern[place] == text[at]);
            next[pattern[place + 1] == '*' ? place : place + 1] |= (unsigned char)fits;
        }
        spread(next);
        for (int place = 0; place < 16; place++)
            now[place] = next[place];
    }
    return now[LENGTH] & 1;
}

int main(void)
{
    read_public(pattern, LENGTH);
    read_secret(text, LENGTH);
    exit_with(matches());
}
