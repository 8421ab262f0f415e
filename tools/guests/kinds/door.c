/* A door: the code that is keyed in is compared letter by letter, up to the first that is wrong. */
#include "flowcheck.h"

static int opens(const char *keyed, const char *code)
{
    int place = 0;
    while (place < 6 && keyed[place] == code[place])
        place++;
    return place == 6;
}

int main(void)
{
    char keyed[6] = {0}, code[6] = {0};
    read_public(keyed, sizeof keyed);
    read_secret(code, sizeof code);
    if (!opens(keyed, code)) {
        write_output("shut\n", 5);
        return 1;
    }
    write_output("open\n", 5);
    return 0;
}
