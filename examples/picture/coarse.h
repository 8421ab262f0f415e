/* A picture of 32 x 32 grey pixels, a byte each, behind a header of 13 bytes: the format PGM. */
#ifndef COARSE_H
#define COARSE_H

#include "flowcheck.h"

enum { SIDE = 32, BLOCK = 8, BLOCKS = SIDE / BLOCK, HEADER = 13 };

static unsigned char picture[HEADER + SIDE * SIDE];

static inline void read_picture(void)
{
    read_secret(picture, sizeof picture);
}

static inline void write_header(void)
{
    write_output("P5\n32 32\n255\n", HEADER);
}

static inline unsigned pixel(int row, int column)
{
    return picture[HEADER + SIDE * row + column];
}

/* The mean of each block of 8 x 8 pixels. The mask says that it has eight bits. The empty statement keeps a compiler
 * from leaving the mask out, since it could work out how large the sum is at most. */
static inline void make_coarse(unsigned means[BLOCKS][BLOCKS])
{
    for (int row = 0; row < BLOCKS; row++)
        for (int column = 0; column < BLOCKS; column++) {
            unsigned sum = 0;
            for (int at = 0; at < BLOCK * BLOCK; at++)
                sum += pixel(BLOCK * row + at / BLOCK, BLOCK * column + at % BLOCK);
            __asm__("" : "+r"(sum));
            means[row][column] = sum / (BLOCK * BLOCK) & 0xff;
        }
}

#endif
