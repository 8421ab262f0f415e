/* The median of nine measurements: for each it is counted how many are smaller. */
#include "flowcheck.h"

static unsigned char middle_of(const unsigned char *values, int count)
{
    for (int one = 0; one < count; one++) {
        int smaller = 0, equal = 0;
        for (int other = 0; other < count; other++) {
            smaller += values[other] < values[one];
            equal += values[other] == values[one];
        }
        if (smaller <= count / 2 && count / 2 < smaller + equal)
            return values[one];
    }
    return 0;
}

int main(void)
{
    unsigned char values[9] = {0};
    read_secret(values, sizeof values);
    unsigned char middle = middle_of(values, sizeof values);
    write_output(&middle, 1);
    return 0;
}
