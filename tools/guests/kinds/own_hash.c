/* A password is hashed by multiplications and shifts, and the hash is compared with the one that is stored. */
#include "flowcheck.h"

static uint32_t hash_of(const unsigned char *bytes, int count)
{
    uint32_t hash = 2166136261u;
    for (int index = 0; index < count; index++) {
        hash = (hash ^ bytes[index]) * 16777619u;
        hash ^= hash >> 13;
    }
    for (int round = 0; round < 100; round++)
        hash = (hash << 7 | hash >> 25) * 2654435761u + round;
    return hash;
}

int main(void)
{
    uint32_t stored = 0;
    unsigned char password[10] = {0};
    read_public(&stored, sizeof stored);
    read_secret(password, sizeof password);
    if (hash_of(password, sizeof password) == stored)
        write_output("yes\n", 4);
    else
        write_output("no\n", 3);
    return 0;
}
