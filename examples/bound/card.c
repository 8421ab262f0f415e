/* A redactor of card numbers. The secret is the sixteen digits of a card, and the public input is a letter with a # in
 * the place of the number. The letter is written with twelve stars and the last four digits. */
#include "flowcheck.h"

enum { DIGITS = 16, SHOWN = 4 };

static void write_redacted(const char *card)
{
    char last[SHOWN];
    for (int place = 0; place < SHOWN; place++)
        last[place] = (card[DIGITS - SHOWN + place] & 0xf) | '0';
    write_output("**** **** **** ", 15);
    write_output(last, SHOWN);
}

int main(void)
{
    char card[DIGITS], letter;
    read_secret(card, DIGITS);
    while (read_public(&letter, 1) == 1)
        if (letter == '#')
            write_redacted(card);
        else
            write_output(&letter, 1);
    return 0;
}
