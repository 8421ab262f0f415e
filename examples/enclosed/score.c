/* A password of ten letters, the secret, is scored: which kinds of letters it has, and whether one stands thrice in a
 * row. What is told is weak, fair or strong. */
#include "flowcheck.h"

enum { LENGTH = 10 };

static char password[LENGTH];

__attribute__((noinline)) static int strength(void)
{
    int lower = 0, upper = 0, digit = 0, other = 0, row = 1, longest = 1;
    for (int place = 0; place < LENGTH; place++) {
        char letter = password[place];
        if (letter >= 'a' && letter <= 'z')
            lower = 1;
        else if (letter >= 'A' && letter <= 'Z')
            upper = 1;
        else if (letter >= '0' && letter <= '9')
            digit = 1;
        else
            other = 1;
        if (place > 0) {
            row = letter == password[place - 1] ? row + 1 : 1;
            if (row > longest)
                longest = row;
        }
    }
    int kinds = lower + upper + digit + other;
    if (kinds < 2 || longest > 2)
        return 0;
    return kinds < 3 ? 1 : 2;
}

int main(void)
{
    read_secret(password, LENGTH);
    exit_with(strength());
}
