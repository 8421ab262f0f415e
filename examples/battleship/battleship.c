/* The game of ship.c, whose answers are "miss", "hit", and "sunk" where no part of the ship is left. */
#include "flowcheck.h"

enum { ROWS = 8, LINE = 9, CELLS = ROWS * LINE, SHOT = 3 };

static unsigned char board[CELLS], was_shot[CELLS];

/* Whether a part of the ship is left. Each cell is looked at, whatever it holds, and nothing is decided. */
static int is_left(unsigned char ship)
{
    unsigned char left = 0;
    for (int cell = 0; cell < CELLS; cell++)
        left |= (board[cell] == ship) & !was_shot[cell];
    return left;
}

int main(void)
{
    unsigned char shot[SHOT];
    read_secret(board, CELLS);
    while (read_public(shot, SHOT) == SHOT) {
        int cell = LINE * ((shot[0] - 'A') & 7) + ((shot[1] - '1') & 7);
        was_shot[cell] = 1;
        if (board[cell] == '.')
            write_output("miss\n", 5);
        else if (is_left(board[cell]))
            write_output("hit\n", 4);
        else
            write_output("sunk\n", 5);
    }
    return 0;
}
