/* A word game: of a guess of five letters, the public input, it is told of each letter whether the word, the secret,
 * has it there, elsewhere, or not. */
#include "flowcheck.h"

enum { LENGTH = 5 };

static char word[LENGTH], guess[LENGTH], told[LENGTH];

__attribute__((noinline)) static void compare(void)
{
    for (int place = 0; place < LENGTH; place++) {
        int there = 0;
        for (int at = 0; at < LENGTH; at++)
            there |= word[at] == guess[place];
        told[place] = word[place] == guess[place] ? '=' : there ? '+' : '.';
    }
}

int main(void)
{
    read_public(guess, LENGTH);
    read_secret(word, LENGTH);
    compare();
    write_output(told, LENGTH);
    return 0;
}
