/* Ships on a board of eight by eight, a bit for each field; five shots, each a column and a row, are answered. */
#include "flowcheck.h"

int main(void)
{
    unsigned char board[8] = {0}, shots[10] = {0};
    read_public(shots, sizeof shots);
    read_secret(board, sizeof board);
    for (int shot = 0; shot < 5; shot++) {
        unsigned column = shots[2 * shot] - 'a', row = shots[2 * shot + 1] - '1';
        if (column < 8 && row < 8 && board[row] >> column & 1)
            write_output("hit ", 4);
        else
            write_output("miss ", 5);
    }
    return 0;
}
