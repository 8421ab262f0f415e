/* Eleven ballots, each the letter of one of three candidates; any other letter is no vote. */
#include "flowcheck.h"

int main(void)
{
    char ballots[11] = {0};
    int counts[3] = {0}, best = 0, is_tie = 0;
    read_secret(ballots, sizeof ballots);
    for (int ballot = 0; ballot < 11; ballot++) {
        unsigned candidate = ballots[ballot] - 'A';
        if (candidate < 3)
            counts[candidate]++;
    }
    for (int candidate = 1; candidate < 3; candidate++) {
        if (counts[candidate] > counts[best]) {
            best = candidate;
            is_tie = 0;
        } else if (counts[candidate] == counts[best]) {
            is_tie = 1;
        }
    }
    char line[2] = {is_tie ? '-' : (char)('A' + best), '\n'};
    write_output(line, 2);
    return 0;
}
