/* A cookie of sixteen bytes and its tag, the public input, are genuine where AES-128 of the cookie under a key, the
 * secret, is the tag. The cipher looks each byte up in its S-box, and the comparison ends at the first difference. */
#include "flowcheck.h"

enum { BLOCK = 16, ROUNDS = 10 };

static unsigned char box[256] __attribute__((aligned(256)));
static unsigned char keys[BLOCK * (ROUNDS + 1)], key[BLOCK], state[BLOCK], shifted[BLOCK], cookie[BLOCK], tag[BLOCK];

static unsigned char twice(unsigned char byte)
{
    return (unsigned char)(byte << 1 ^ (byte >> 7 ? 0x1b : 0));
}

/* The S-box of FIPS 197: the inverse of each byte, walked by a generator, with its bits mixed. */
static void make_box(void)
{
    unsigned char byte = 1, inverse = 1;
    do {
        byte ^= twice(byte);
        inverse ^= (unsigned char)(inverse << 1);
        inverse ^= (unsigned char)(inverse << 2);
        inverse ^= (unsigned char)(inverse << 4);
        if (inverse & 0x80)
            inverse ^= 0x09;
        unsigned char mixed = inverse;
        for (int turn = 1; turn <= 4; turn++)
            mixed ^= (unsigned char)(inverse << turn | inverse >> (8 - turn));
        box[byte] = mixed ^ 0x63;
    } while (byte != 1);
    box[0] = 0x63;
}

static void expand(void)
{
    unsigned char constant = 1;
    for (int place = 0; place < BLOCK; place++)
        keys[place] = key[place];
    for (int place = BLOCK; place < BLOCK * (ROUNDS + 1); place += 4) {
        unsigned char word[4];
        for (int at = 0; at < 4; at++)
            word[at] = keys[place - 4 + at];
        if (place % BLOCK == 0) {
            unsigned char first = word[0];
            for (int at = 0; at < 3; at++)
                word[at] = box[word[at + 1]];
            word[3] = box[first];
            word[0] ^= constant;
            constant = twice(constant);
        }
        for (int at = 0; at < 4; at++)
            keys[place + at] = keys[place - BLOCK + at] ^ word[at];
    }
}

static void mix(unsigned char *column)
{
    unsigned char all = column[0] ^ column[1] ^ column[2] ^ column[3], first = column[0];
    for (int at = 0; at < 4; at++) {
        unsigned char next = at < 3 ? column[at + 1] : first;
        column[at] ^= all ^ twice(column[at] ^ next);
    }
}

__attribute__((noinline)) static int is_genuine(void)
{
    expand();
    for (int place = 0; place < BLOCK; place++)
        state[place] = cookie[place] ^ keys[place];
    for (int round = 1; round <= ROUNDS; round++) {
        for (int place = 0; place < BLOCK; place++)
            shifted[place] = box[state[(place + 4 * (place % 4)) % BLOCK]];
        for (int column = 0; round < ROUNDS && column < 4; column++)
            mix(shifted + 4 * column);
        for (int place = 0; place < BLOCK; place++)
            state[place] = shifted[place] ^ keys[BLOCK * round + place];
    }
    for (int place = 0; place < BLOCK; place++)
        if (state[place] != tag[place])
            return 0;
    return 1;
}

int main(void)
{
    make_box();
    read_public(cookie, BLOCK);
    read_public(tag, BLOCK);
    read_secret(key, BLOCK);
    write_output(is_genuine() ? "yes\n" : "no \n", 4);
    return 0;
}
