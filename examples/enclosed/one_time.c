/* A one-time code of six digits, made as by RFC 4226 of a key, the secret, and a counter, but with SHA-256: is it the
 * one that somebody types? Counter and code are the public input. */
#include "flowcheck.h"
#include "hmac.h"

enum { COUNTER = 8, DIGITS = 6 };

static unsigned char key[KEY], counter[COUNTER], typed[DIGITS];

__attribute__((noinline)) static int is_right(void)
{
    hmac(key, counter, COUNTER);
    int offset = digest[HASH - 1] & 15;
    uint32_t code = (uint32_t)(digest[offset] & 0x7f) << 24 | (uint32_t)digest[offset + 1] << 16
        | (uint32_t)digest[offset + 2] << 8 | digest[offset + 3];
    for (int place = DIGITS - 1; place >= 0; place--, code /= 10)
        if (typed[place] != '0' + code % 10)
            return 0;
    return 1;
}

int main(void)
{
    read_public(counter, COUNTER);
    read_public(typed, DIGITS);
    read_secret(key, KEY);
    exit_with(is_right());
}
