/* A list of eight numbers, the secret, is kept on a heap of the C library and turned round twice: are two next to each
 * other equal? */
#include <stdlib.h>
#include "flowcheck.h"

enum { COUNT = 8 };

struct item { struct item *next; unsigned char value; };

static unsigned char values[COUNT];

static struct item *turned(struct item *first)
{
    struct item *last = 0;
    while (first) {
        struct item *next = first->next;
        first->next = last;
        last = first;
        first = next;
    }
    return last;
}

__attribute__((noinline)) static int has_equals(struct item *first)
{
    first = turned(turned(first));
    for (; first && first->next; first = first->next)
        if (first->value == first->next->value)
            return 1;
    return 0;
}

int main(void)
{
    struct item *first = 0;
    read_secret(values, COUNT);
    for (int place = 0; place < COUNT; place++) {
        struct item *item = malloc(sizeof *item);
        if (!item)
            return 2;
        item->next = first;
        item->value = values[place];
        first = item;
    }
    exit_with(has_equals(first));
}
