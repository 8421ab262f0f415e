/* A JSON text of sixteen bytes, the secret: an object with one key and a number, a string, or true, false or null. The
 * answer is -1 where it is none, 0 where the value is false, null, 0 or an empty string, and else 1. */
#include "flowcheck.h"

enum { LENGTH = 16 };

static char text[LENGTH + 1];

static int is_blank(char c)
{
    return c == ' ' || c == '\t' || c == '\n' || c == '\r';
}

static int skip_blanks(int at)
{
    while (at < LENGTH && is_blank(text[at]))
        at++;
    return at;
}

/* Behind a string, or -1 where there is none. */
static int skip_string(int at)
{
    if (at >= LENGTH || text[at] != '"')
        return -1;
    for (at++; at < LENGTH; at++) {
        if (text[at] == '"')
            return at + 1;
        if ((unsigned char)text[at] < ' ')
            return -1;
        if (text[at] == '\\')
            at++;
    }
    return -1;
}

static int skip_word(int at, const char *word)
{
    for (; *word; word++, at++)
        if (at >= LENGTH || text[at] != *word)
            return -1;
    return at;
}

__attribute__((noinline)) static int truth(void)
{
    int at = skip_blanks(0), value = 0, behind;
    if (at >= LENGTH || text[at] != '{')
        return -1;
    at = skip_string(skip_blanks(at + 1));
    if (at < 0)
        return -1;
    at = skip_blanks(at);
    if (at >= LENGTH || text[at] != ':')
        return -1;
    at = skip_blanks(at + 1);
    if (at >= LENGTH)
        return -1;
    if (text[at] == '"') {
        behind = skip_string(at);
        value = behind != at + 2;
    } else if (text[at] == 't') {
        behind = skip_word(at, "true");
        value = 1;
    } else if (text[at] == 'f') {
        behind = skip_word(at, "false");
    } else if (text[at] == 'n') {
        behind = skip_word(at, "null");
    } else {
        for (behind = at; behind < LENGTH && text[behind] >= '0' && text[behind] <= '9'; behind++)
            value |= text[behind] != '0';
        if (behind == at)
            return -1;
    }
    if (behind < 0)
        return -1;
    at = skip_blanks(behind);
    return at < LENGTH && text[at] == '}' && skip_blanks(at + 1) == LENGTH ? value : -1;
}

int main(void)
{
    read_secret(text, LENGTH);
    exit_with(truth());
}
