/* A key is derived of a passphrase and a public salt by four hundred rounds; one byte of the key is shown, to see by it
 * whether the passphrase was mistyped. */
#include "flowcheck.h"

int main(void)
{
    uint32_t state[2] = {0x9e3779b9, 0x7f4a7c15}, salt = 0;
    unsigned char phrase[8] = {0}, shown;
    read_public(&salt, sizeof salt);
    read_secret(phrase, sizeof phrase);
    for (int round = 0; round < 400; round++) {
        state[0] += phrase[round % 8] ^ (state[1] << 3) ^ salt;
        state[1] = (state[1] ^ state[0]) * 0x85ebca6b;
    }
    shown = (state[1] ^ state[1] >> 16) & 255;
    write_output(&shown, 1);
    return 0;
}
