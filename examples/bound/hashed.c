/* A login that knows the SHA-256 of a password alone. The secret is a password of eight letters that is tried, the
 * public input is the hash of the right one, 32 bytes. The guest writes whether they are the same. */
#include "sha256.h"

enum { LENGTH = 8 };

int main(void)
{
    uint32_t state[WORDS];
    unsigned char password[LENGTH], right[HASH], difference = 0;
    read_public(right, HASH);
    read_secret(password, LENGTH);
    hash_begin(state);
    hash_last(state, password, LENGTH, LENGTH);
    for (int at = 0; at < HASH; at++)
        difference |= right[at] ^ (unsigned char)(state[at / 4] >> (24 - 8 * (at % 4)));
    if (difference == 0)
        write_output("welcome\n", 8);
    else
        write_output("no\n", 3);
    return 0;
}
