/* A loan is decided by a tree of questions about four numbers of one byte, the secret: income, age, debts and years.
 * What is told is no, maybe or yes. */
#include "flowcheck.h"

struct question { unsigned char what, limit, below, above; };

static const struct question questions[8] __attribute__((aligned(32))) = {
    {0, 40, 1, 2}, {2, 10, 3, 16}, {1, 25, 4, 5}, {3, 5, 16, 17}, {3, 2, 16, 6}, {2, 60, 18, 17}, {2, 5, 17, 16},
    {0, 0, 16, 16}};
static unsigned char person[4] __attribute__((aligned(4)));

__attribute__((noinline)) static int decide(void)
{
    unsigned at = 0;
    while (at < 16) {
        const struct question *asked = &questions[at & 7];
        at = person[asked->what & 3] < asked->limit ? asked->below : asked->above;
    }
    return at - 16;
}

int main(void)
{
    read_secret(person, sizeof person);
    exit_with(decide() & 3);
}
