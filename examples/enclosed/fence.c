/* A place on a map, two numbers of two bytes and the secret: does it lie inside a fence of six corners, the public
 * input? A ray to the right is counted where it crosses an edge. */
#include "flowcheck.h"

enum { CORNERS = 6 };

static int16_t place[2], corners[CORNERS][2];

__attribute__((noinline)) static int is_inside(void)
{
    int inside = 0;
    for (int one = 0, before = CORNERS - 1; one < CORNERS; before = one++) {
        int x = corners[one][0], y = corners[one][1], u = corners[before][0], v = corners[before][1];
        if ((y > place[1]) == (v > place[1]))
            continue;
        int64_t left = (int64_t)(place[0] - x) * (v - y), right = (int64_t)(u - x) * (place[1] - y);
        if (v > y ? left < right : left > right)
            inside = !inside;
    }
    return inside;
}

int main(void)
{
    read_public(corners, sizeof corners);
    read_secret(place, sizeof place);
    exit_with(is_inside());
}
