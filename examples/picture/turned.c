/* Writes the secret picture, a quarter turned. */
#include "coarse.h"

int main(void)
{
    unsigned char line[SIDE];
    read_picture();
    write_header();
    for (int row = 0; row < SIDE; row++) {
        for (int column = 0; column < SIDE; column++)
            line[column] = pixel(SIDE - 1 - column, row);
        write_output(line, SIDE);
    }
    return 0;
}
