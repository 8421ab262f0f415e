/* Writes the SHA-256 of the secret. */
#include "sha256.h"

int main(void)
{
    uint32_t state[WORDS], all = 0;
    unsigned char block[BLOCK];
    int count;
    hash_begin(state);
    while ((count = read_secret(block, BLOCK)) == BLOCK) {
        hash_block(state, block);
        all += BLOCK;
    }
    hash_last(state, block, count, all + count);
    write_hash(state, HASH);
    return 0;
}
