/* A client that proves that it knows a key. The secret is the key of 64 bytes. The public input is a line of 16 letters
 * for each challenge. The client answers each with the SHA-256 of the key and the challenge, or with its first SHOWN
 * bytes. */
#include "sha256.h"

#ifndef SHOWN
#define SHOWN HASH
#endif
enum { CHALLENGE = 16 };

int main(void)
{
    uint32_t state[WORDS];
    unsigned char key[BLOCK], challenge[CHALLENGE + 1];
    read_secret(key, BLOCK);
    while (read_public(challenge, CHALLENGE + 1) == CHALLENGE + 1) {
        hash_begin(state);
        hash_block(state, key);
        hash_last(state, challenge, CHALLENGE, BLOCK + CHALLENGE);
        write_hash(state, SHOWN);
    }
    return 0;
}
