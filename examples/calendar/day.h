/* A day of appointments, a line each, as 09:30-11:00: from nine to five, by half hours. */
#ifndef DAY_H
#define DAY_H

#include "flowcheck.h"

enum { LINE = 12, BEGIN = 0, END = 6, HALVES = 16 };

/* The half hour, counted from nine, of a time as 09:30. */
static inline int half_hour(const unsigned char *time)
{
    int hour = 10 * (time[0] - '0') + (time[1] - '0');
    return 2 * (hour - 9) + (time[3] == '3');
}

/* A bit for each half hour that is taken. Nothing is decided, and no place in memory depends on an appointment. */
static inline unsigned read_day(void)
{
    unsigned char line[LINE];
    unsigned taken = 0;
    while (read_secret(line, LINE) == LINE)
        taken |= (1u << half_hour(line + END)) - (1u << half_hour(line + BEGIN));
    return taken & ((1u << HALVES) - 1);
}

static inline void write_time(int half)
{
    unsigned char time[] = "00:00\n";
    int hour = 9 + half / 2;
    time[0] += hour / 10;
    time[1] += hour % 10;
    time[3] += half % 2 * 3;
    write_output(time, sizeof time - 1);
}

#endif
