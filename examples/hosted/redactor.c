/* A redactor. The secret has a name on each line, in any order. The public input is a letter, which is written with
 * stars in the place of each name. */
#include "hosted.h"

#include <ctype.h>
#include <stdlib.h>
#include <string.h>

enum { LONGEST = 16, MOST = 8, LINE = 128 };

static char names[MOST][LONGEST];
static int count;

static int compare(const void *one, const void *other)
{
    return strcmp(one, other);
}

/* The two functions below are not put where they are called, so that a region can enclose the call of each. */
__attribute__((noinline)) static void read_names(void)
{
    while (count < MOST && fgets(names[count], LONGEST, secret)) {
        names[count][strcspn(names[count], "\n")] = 0;
        count++;
    }
    qsort(names, count, LONGEST, compare);
}

__attribute__((noinline)) static int is_name(const char *word)
{
    return bsearch(word, names, count, LONGEST, compare) != NULL;
}

/* Writes a word, or a star for each of its letters. */
static void write_word(const char *word)
{
    if (is_name(word))
        printf("%.*s", (int)strlen(word), "****************");
    else
        printf("%s", word);
}

int main(void)
{
    char line[LINE], word[LONGEST];
    read_names();
    while (fgets(line, LINE, stdin))
        for (const char *at = line; *at;) {
            size_t length = 0;
            while (length < LONGEST - 1 && isalpha((unsigned char)at[length]))
                length++;
            if (length) {
                memcpy(word, at, length);
                word[length] = 0;
                write_word(word);
                at += length;
            } else {
                putchar(*at++);
            }
        }
    return 0;
}
