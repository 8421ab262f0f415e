/* Whether records may be shown. The secret is twenty of them, of each the group that it is in, 0 to 5. Of each group
 * there must be three, or none. */
#include "flowcheck.h"

enum { RECORDS = 20, GROUPS = 6, ENOUGH = 3 };

int main(void)
{
    unsigned char groups[RECORDS];
    int small = 0;
    read_secret(groups, RECORDS);
    for (int group = 0; group < GROUPS; group++) {
        int count = 0;
        for (int at = 0; at < RECORDS; at++)
            if (groups[at] == group && count < ENOUGH)
                count++;
        if (count > 0 && count < ENOUGH)
            small++;
    }
    if (small == 0)
        write_output("may be shown\n", 13);
    else
        write_output("some groups are small\n", 22);
    return 0;
}
