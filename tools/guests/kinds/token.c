/* A token of sixteen bytes is compared in constant time, four bytes at a time. */
#include "flowcheck.h"

static uint32_t differs(const uint32_t *one, const uint32_t *other, int words)
{
    uint32_t all = 0;
    for (int index = 0; index < words; index++)
        all |= one[index] ^ other[index];
    return (all | -all) >> 31;
}

int main(void)
{
    uint32_t shown[4] = {0}, token[4] = {0};
    read_public(shown, sizeof shown);
    read_secret(token, sizeof token);
    char answer = '1' - differs(shown, token, 4);
    write_output(&answer, 1);
    return 0;
}
