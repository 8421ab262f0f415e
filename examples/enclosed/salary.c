/* A salary, four bytes and the secret: in which of five ranges does it lie? */
#include "flowcheck.h"

static uint32_t salary;

__attribute__((noinline)) static int range(void)
{
    static const uint32_t limits[4] = {20000, 40000, 60000, 100000};
    int place = 0;
    while (place < 4 && salary >= limits[place])
        place++;
    return place;
}

int main(void)
{
    read_secret(&salary, sizeof salary);
    exit_with(range());
}
