/* Writes the secret picture with large pixels: each is the mean of a block. */
#include "coarse.h"

int main(void)
{
    static unsigned means[BLOCKS][BLOCKS];
    unsigned char line[SIDE];
    read_picture();
    make_coarse(means);
    write_header();
    for (int row = 0; row < SIDE; row++) {
        for (int column = 0; column < SIDE; column++)
            line[column] = means[row / BLOCK][column / BLOCK];
        write_output(line, SIDE);
    }
    return 0;
}
