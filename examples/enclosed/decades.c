/* The ages of sixteen people, the secret, are counted by decades below eighty. Of each of the eight counts it is told
 * whether it is none, small, which hides it, or three and more. */
#include "flowcheck.h"

enum { PEOPLE = 16, DECADES = 8 };

static unsigned char ages[PEOPLE];
static unsigned char counts[DECADES] __attribute__((aligned(DECADES)));

__attribute__((noinline)) static void count(void)
{
    for (int one = 0; one < PEOPLE; one++)
        counts[ages[one] >> 4 & 7]++;
    for (int decade = 0; decade < DECADES; decade++)
        counts[decade] = counts[decade] == 0 ? 0 : counts[decade] < 3 ? 1 : 2;
}

int main(void)
{
    read_secret(ages, PEOPLE);
    count();
    unsigned char told = 0;
    for (int decade = 0; decade < 2; decade++)
        told = (unsigned char)(told * 4 + (counts[decade] & 3));
    exit_with(told);
}
