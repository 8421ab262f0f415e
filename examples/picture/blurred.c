/* Writes the secret picture blurred: between the middles of the blocks, each pixel is a mix of the four nearest means. */
#include "coarse.h"

enum { STEPS = 2 * BLOCK };

static unsigned means[BLOCKS][BLOCKS];

static int at_most(int value, int most)
{
    return value < 0 ? 0 : value > most ? most : value;
}

/* How far a pixel is behind the middle of the first block, in halves of a pixel. */
static int steps_of(int place)
{
    return at_most(2 * place + 1 - BLOCK, STEPS * (BLOCKS - 1));
}

/* A mix of the means above and below in a column of blocks. */
static unsigned mixed(int column, int down)
{
    int row = down / STEPS, below = at_most(row + 1, BLOCKS - 1), part = down % STEPS;
    return means[row][column] * (STEPS - part) + means[below][column] * part;
}

int main(void)
{
    unsigned char line[SIDE];
    read_picture();
    make_coarse(means);
    write_header();
    for (int row = 0; row < SIDE; row++) {
        int down = steps_of(row);
        for (int place = 0; place < SIDE; place++) {
            int right = steps_of(place), column = right / STEPS, next = at_most(column + 1, BLOCKS - 1);
            unsigned sum = mixed(column, down) * (STEPS - right % STEPS) + mixed(next, down) * (right % STEPS);
            line[place] = sum / (STEPS * STEPS);
        }
        write_output(line, SIDE);
    }
    return 0;
}
