/* The sum of four bytes, in decimal. */
#include "flowcheck.h"

int main(void)
{
    unsigned char values[4] = {0};
    char digits[10];
    int place = sizeof digits;
    unsigned sum = 0;
    read_secret(values, sizeof values);
    for (int index = 0; index < 4; index++)
        sum += values[index];
    do
        digits[--place] = '0' + sum % 10;
    while (sum /= 10);
    write_output(digits + place, sizeof digits - place);
    return 0;
}
