/* A name of eight bytes, the secret, is looked up in a Bloom filter of 256 bits that the public input fills with four
 * names. What is told is whether it may be there. */
#include "flowcheck.h"

enum { LENGTH = 8, NAMES = 4, HASHES = 3 };

static unsigned char bits[32] __attribute__((aligned(32)));
static unsigned char name[LENGTH], known[LENGTH];

static uint32_t hashed(const unsigned char *letters, uint32_t seed)
{
    uint32_t hash = 2166136261u ^ seed;
    for (int place = 0; place < LENGTH; place++)
        hash = (hash ^ letters[place]) * 16777619u;
    return hash >> 24;
}

__attribute__((noinline)) static int may_be_there(void)
{
    for (uint32_t seed = 0; seed < HASHES; seed++) {
        uint32_t bit = hashed(name, seed);
        if (!(bits[bit / 8] >> bit % 8 & 1))
            return 0;
    }
    return 1;
}

int main(void)
{
    for (int one = 0; one < NAMES; one++) {
        read_public(known, LENGTH);
        for (uint32_t seed = 0; seed < HASHES; seed++) {
            uint32_t bit = hashed(known, seed);
            bits[bit / 8] |= (unsigned char)(1 << bit % 8);
        }
    }
    read_secret(name, LENGTH);
    exit_with(may_be_there());
}
