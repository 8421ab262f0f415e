/* A histogram: twelve people by the decade of their age, up to 39 and above; a star for each. */
#include "flowcheck.h"

int main(void)
{
    unsigned char ages[12] = {0};
    int counts[4] = {0};
    read_secret(ages, sizeof ages);
    for (int one = 0; one < 12; one++) {
        int decade = ages[one] / 10;
        counts[decade < 4 ? decade : 3]++;
    }
    for (int decade = 0; decade < 4; decade++) {
        for (int star = 0; star < counts[decade]; star++)
            write_output("*", 1);
        write_output("\n", 1);
    }
    return 0;
}
