/* A message of eight bytes and its tag, the public input: is the tag the SipHash-2-4 of the message under a key of
 * sixteen bytes, the secret? */
#include "flowcheck.h"

static uint64_t key[2], message, tag;

static uint64_t turned(uint64_t word, int places)
{
    return word << places | word >> (64 - places);
}

static void rounds(uint64_t v[4], int count)
{
    while (count-- > 0) {
        v[0] += v[1];
        v[1] = turned(v[1], 13) ^ v[0];
        v[0] = turned(v[0], 32);
        v[2] += v[3];
        v[3] = turned(v[3], 16) ^ v[2];
        v[0] += v[3];
        v[3] = turned(v[3], 21) ^ v[0];
        v[2] += v[1];
        v[1] = turned(v[1], 17) ^ v[2];
        v[2] = turned(v[2], 32);
    }
}

__attribute__((noinline)) static int is_genuine(void)
{
    uint64_t v[4] = {key[0] ^ 0x736f6d6570736575, key[1] ^ 0x646f72616e646f6d, key[0] ^ 0x6c7967656e657261,
                     key[1] ^ 0x7465646279746573};
    uint64_t last = (uint64_t)8 << 56;
    v[3] ^= message;
    rounds(v, 2);
    v[0] ^= message;
    v[3] ^= last;
    rounds(v, 2);
    v[0] ^= last;
    v[2] ^= 0xff;
    rounds(v, 4);
    return (v[0] ^ v[1] ^ v[2] ^ v[3]) == tag;
}

int main(void)
{
    read_public(&message, sizeof message);
    read_public(&tag, sizeof tag);
    read_secret(key, sizeof key);
    exit_with(is_genuine());
}
