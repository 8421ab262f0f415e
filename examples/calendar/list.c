/* The free times of a day. The secret is a list of appointments, a line each, as in day.h. The guest marks each half
 * hour of an appointment as taken, and writes each one that is free. */
#include "day.h"

int main(void)
{
    unsigned char line[LINE], is_taken[HALVES] = {0};
    while (read_secret(line, LINE) == LINE)
        for (int half = half_hour(line + BEGIN); half < half_hour(line + END); half++)
            is_taken[half] = 1;
    for (int half = 0; half < HALVES; half++)
        if (!is_taken[half])
            write_time(half);
    return 0;
}
