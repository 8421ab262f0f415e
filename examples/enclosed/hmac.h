/* HMAC-SHA-256 (RFC 2104) of a message of less than a block under a key of sixteen bytes. */
#ifndef HMAC_H
#define HMAC_H

#include "sha256.h"

enum { KEY = 16 };

static unsigned char padded[BLOCK], digest[HASH];
static uint32_t state[WORDS];

/* The hash of the key with a pad and of some bytes behind it, in `digest`. */
static inline void half_of(const unsigned char *key, unsigned char pad, const unsigned char *bytes, int count)
{
    for (int place = 0; place < BLOCK; place++)
        padded[place] = pad ^ (place < KEY ? key[place] : 0);
    hash_begin(state);
    hash_block(state, padded);
    hash_last(state, bytes, count, BLOCK + (uint32_t)count);
    for (int place = 0; place < HASH; place++)
        digest[place] = (unsigned char)(state[place / 4] >> (24 - 8 * (place % 4)));
}

static inline void hmac(const unsigned char *key, const unsigned char *message, int count)
{
    static unsigned char inner[HASH];
    half_of(key, 0x36, message, count);
    for (int place = 0; place < HASH; place++)
        inner[place] = digest[place];
    half_of(key, 0x5c, inner, HASH);
}

#endif
