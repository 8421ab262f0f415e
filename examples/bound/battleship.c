/* A game of battleship. The secret is a board of eight rows, a byte each, whose bits are the cells with a ship. The
 * public input is shots, each a letter of a row, A to H, and a digit of a column, 1 to 8. The guest answers each with
 * "hit" or "miss". */
#include "flowcheck.h"

enum { ROWS = 8 };

int main(void)
{
    unsigned char board[ROWS], shot[2];
    read_secret(board, ROWS);
    while (read_public(shot, 2) == 2) {
        if (board[(shot[0] - 'A') & 7] >> ((shot[1] - '1') & 7) & 1)
            write_output("hit\n", 4);
        else
            write_output("miss\n", 5);
    }
    return 0;
}
