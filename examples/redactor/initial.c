/* The redactor of stars.c with the initial of the name and three stars, however long the name is. Five bits of a byte
 * tell which capital letter it is. */
#include "flowcheck.h"

enum { LENGTH = 12 };

static void write_redacted(const char *name)
{
    char initial = (name[0] & 0x1f) | 0x40;
    write_output(&initial, 1);
    write_output("***", 3);
}

int main(void)
{
    char name[LENGTH], letter;
    read_secret(name, LENGTH);
    while (read_public(&letter, 1) == 1)
        if (letter == '@')
            write_redacted(name);
        else
            write_output(&letter, 1);
    return 0;
}
