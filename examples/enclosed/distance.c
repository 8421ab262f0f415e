/* How many letters have to be changed, put in or taken out to make of one word of six letters, the secret, another, the
 * public input: at most three are told, and 3 stands for more. */
#include "flowcheck.h"

enum { LENGTH = 6 };

static unsigned char one[LENGTH], other[LENGTH], row[LENGTH + 1];

static int lesser(int first, int second)
{
    return first < second ? first : second;
}

__attribute__((noinline)) static int distance(void)
{
    for (int column = 0; column <= LENGTH; column++)
        row[column] = (unsigned char)column;
    for (int line = 1; line <= LENGTH; line++) {
        int corner = row[0];
        row[0] = (unsigned char)line;
        for (int column = 1; column <= LENGTH; column++) {
            int above = row[column];
            int changed = corner + (one[line - 1] != other[column - 1]);
            row[column] = (unsigned char)lesser(changed, lesser(above, row[column - 1]) + 1);
            corner = above;
        }
    }
    return row[LENGTH] < 3 ? row[LENGTH] : 3;
}

int main(void)
{
    read_public(other, LENGTH);
    read_secret(one, LENGTH);
    return distance() & 3;
}
