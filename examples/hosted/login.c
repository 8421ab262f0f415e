/* A login. The secret is a line with the password. The public input has a line for each try. */
#include "hosted.h"

#include <string.h>

enum { LONGEST = 32, TRIES = 3 };

static char password[LONGEST];

/* A line without its end; 0 where there is none. */
static int read_line(char *line, FILE *from)
{
    if (!fgets(line, LONGEST, from))
        return 0;
    line[strcspn(line, "\n")] = 0;
    return 1;
}

/* The two functions below are not put where they are called, so that a region can enclose the call of each. */
__attribute__((noinline)) static void read_word(void)
{
    read_line(password, secret);
}

__attribute__((noinline)) static int is_right(const char *typed)
{
    return strcmp(typed, password) == 0;
}

int main(void)
{
    char typed[LONGEST];
    read_word();
    for (int left = TRIES; left > 0 && read_line(typed, stdin); left--) {
        if (is_right(typed)) {
            printf("Welcome. Try %d was right.\n", TRIES - left + 1);
            return 0;
        }
        printf("Wrong: %s\n", typed);
    }
    printf("Locked.\n");
    return 1;
}
