/* SHA-256 (FIPS 180-4), without a decision on what is hashed. */
#ifndef SHA256_H
#define SHA256_H

#include "flowcheck.h"

enum { BLOCK = 64, WORDS = 8, ROUNDS = 64, HASH = 4 * WORDS };

static const uint32_t constants[ROUNDS] = {
    0x428a2f98, 0x71374491, 0xb5c0fbcf, 0xe9b5dba5, 0x3956c25b, 0x59f111f1, 0x923f82a4, 0xab1c5ed5,
    0xd807aa98, 0x12835b01, 0x243185be, 0x550c7dc3, 0x72be5d74, 0x80deb1fe, 0x9bdc06a7, 0xc19bf174,
    0xe49b69c1, 0xefbe4786, 0x0fc19dc6, 0x240ca1cc, 0x2de92c6f, 0x4a7484aa, 0x5cb0a9dc, 0x76f988da,
    0x983e5152, 0xa831c66d, 0xb00327c8, 0xbf597fc7, 0xc6e00bf3, 0xd5a79147, 0x06ca6351, 0x14292967,
    0x27b70a85, 0x2e1b2138, 0x4d2c6dfc, 0x53380d13, 0x650a7354, 0x766a0abb, 0x81c2c92e, 0x92722c85,
    0xa2bfe8a1, 0xa81a664b, 0xc24b8b70, 0xc76c51a3, 0xd192e819, 0xd6990624, 0xf40e3585, 0x106aa070,
    0x19a4c116, 0x1e376c08, 0x2748774c, 0x34b0bcb5, 0x391c0cb3, 0x4ed8aa4a, 0x5b9cca4f, 0x682e6ff3,
    0x748f82ee, 0x78a5636f, 0x84c87814, 0x8cc70208, 0x90befffa, 0xa4506ceb, 0xbef9a3f7, 0xc67178f2,
};

static inline uint32_t turned(uint32_t word, int bits)
{
    return word >> bits | word << (32 - bits);
}

static inline void extend(uint32_t *words, const unsigned char *block)
{
    for (int at = 0; at < BLOCK / 4; at++) {
        words[at] = 0;
        for (int place = 0; place < 4; place++)
            words[at] = words[at] << 8 | block[4 * at + place];
    }
    for (int at = BLOCK / 4; at < ROUNDS; at++) {
        uint32_t early = words[at - 15], late = words[at - 2];
        early = turned(early, 7) ^ turned(early, 18) ^ early >> 3;
        late = turned(late, 17) ^ turned(late, 19) ^ late >> 10;
        words[at] = words[at - 16] + early + words[at - 7] + late;
    }
}

static inline void hash_begin(uint32_t *state)
{
    static const uint32_t first[WORDS] = {
        0x6a09e667, 0xbb67ae85, 0x3c6ef372, 0xa54ff53a, 0x510e527f, 0x9b05688c, 0x1f83d9ab, 0x5be0cd19,
    };
    memcpy(state, first, sizeof first);
}

static void hash_block(uint32_t *state, const unsigned char *block)
{
    uint32_t words[ROUNDS], now[WORDS];
    extend(words, block);
    memcpy(now, state, sizeof now);
    for (int at = 0; at < ROUNDS; at++) {
        uint32_t high = turned(now[4], 6) ^ turned(now[4], 11) ^ turned(now[4], 25);
        uint32_t low = turned(now[0], 2) ^ turned(now[0], 13) ^ turned(now[0], 22);
        uint32_t choice = (now[4] & now[5]) ^ (~now[4] & now[6]);
        uint32_t most = (now[0] & now[1]) ^ (now[0] & now[2]) ^ (now[1] & now[2]);
        uint32_t first = now[7] + high + choice + constants[at] + words[at];
        for (int place = WORDS - 1; place > 0; place--)
            now[place] = now[place - 1];
        now[4] += first;
        now[0] = first + low + most;
    }
    for (int at = 0; at < WORDS; at++)
        state[at] += now[at];
}

/* The last bytes, fewer than a block, and the number of all bytes. */
static void hash_last(uint32_t *state, const unsigned char *bytes, int count, uint32_t all)
{
    unsigned char block[BLOCK] = {0};
    memcpy(block, bytes, count);
    block[count] = 0x80;
    if (count >= BLOCK - 8) {
        hash_block(state, block);
        memset(block, 0, BLOCK);
    }
    for (int place = 0; place < 4; place++)
        block[BLOCK - 1 - place] = 8 * all >> 8 * place;
    block[BLOCK - 5] = all >> 29;
    hash_block(state, block);
}

/* Writes the first bytes of the hash in hexadecimal, as a line. Each byte passes one mask of eight bits. */
static inline void write_hash(const uint32_t *state, int count)
{
    char line[2 * HASH + 1];
    for (int at = 0; at < count; at++) {
        uint32_t byte = state[at / 4] >> (24 - 8 * (at % 4)) & 0xff;
        for (int half = 0; half < 2; half++) {
            int digit = half ? byte & 15 : byte >> 4;
            line[2 * at + half] = '0' + digit + ((9 - digit) >> 31 & ('a' - '0' - 10));
        }
    }
    line[2 * count] = '\n';
    write_output(line, 2 * count + 1);
}

#endif
