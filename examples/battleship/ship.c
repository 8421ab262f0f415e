/* A game of battleship. The secret is a board of eight lines, each with eight cells: a dot is water, a letter is a part
 * of the ship of this letter. The public input is a line for each shot, a letter of a row, A to H, and a digit of a
 * column, 1 to 8. The guest answers "miss", or "hit" and the ship. */
#include "flowcheck.h"

enum { ROWS = 8, LINE = 9, CELLS = ROWS * LINE, SHOT = 3, LETTER = 4 };

int main(void)
{
    unsigned char board[CELLS], shot[SHOT], answer[] = "hit ?\n";
    read_secret(board, CELLS);
    while (read_public(shot, SHOT) == SHOT) {
        unsigned char cell = board[LINE * ((shot[0] - 'A') & 7) + ((shot[1] - '1') & 7)];
        answer[LETTER] = cell;
        if (cell == '.')
            write_output("miss\n", 5);
        else
            write_output(answer, sizeof answer - 1);
    }
    return 0;
}
