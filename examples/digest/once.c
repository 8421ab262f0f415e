/* The client of each.c, which hashes its key once: from then on it needs only the state of the hash behind the key,
 * eight words. */
#include "sha256.h"

#ifndef SHOWN
#define SHOWN HASH
#endif
enum { CHALLENGE = 16 };

/* Not put where it is called, so that a region can enclose the call. */
__attribute__((noinline)) static void hash_key(uint32_t *kept, const unsigned char *key)
{
    hash_begin(kept);
    hash_block(kept, key);
}

int main(void)
{
    uint32_t kept[WORDS], state[WORDS];
    unsigned char key[BLOCK], challenge[CHALLENGE + 1];
    read_secret(key, BLOCK);
    hash_key(kept, key);
    while (read_public(challenge, CHALLENGE + 1) == CHALLENGE + 1) {
        memcpy(state, kept, sizeof state);
        hash_last(state, challenge, CHALLENGE, BLOCK + CHALLENGE);
        write_hash(state, SHOWN);
    }
    return 0;
}
