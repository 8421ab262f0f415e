/* Ten records, the secret: each has an age and a ward, a byte each. The public input is a query: the least age, the
 * greatest age and the ward. It is told how many records match, up to three, and else that there are many. */
#include "flowcheck.h"

struct record { unsigned char age, ward; };

int main(void)
{
    struct record records[10];
    unsigned char query[3] = {0};
    int found = 0;
    read_public(query, sizeof query);
    read_secret(records, sizeof records);
    for (int at = 0; at < 10; at++)
        if (records[at].age >= query[0] && records[at].age <= query[1] && records[at].ward == query[2])
            found++;
    if (found > 3) {
        write_output("many\n", 5);
        return 0;
    }
    char line[2] = {(char)('0' + found), '\n'};
    write_output(line, 2);
    return 0;
}
