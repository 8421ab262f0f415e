/* A redactor. The public input is a letter with an @ in the place of a name, and the name is the secret: at most twelve
 * letters, filled up with dots. The letter is written with a star for each letter of the name. */
#include "flowcheck.h"

enum { LENGTH = 12 };

static void write_redacted(const char *name)
{
    for (int place = 0; place < LENGTH && name[place] != '.'; place++)
        write_output("*", 1);
}

int main(void)
{
    char name[LENGTH], letter;
    read_secret(name, LENGTH);
    while (read_public(&letter, 1) == 1)
        if (letter == '@')
            write_redacted(name);
        else
            write_output(&letter, 1);
    return 0;
}
