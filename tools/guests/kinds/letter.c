/* A letter in which a name stands wherever there is an @: the name is blackened, a # for each of its letters. */
#include "flowcheck.h"

static int length_of(const char *text, int most)
{
    int length = 0;
    while (length < most && text[length])
        length++;
    return length;
}

int main(void)
{
    char name[10] = {0}, text[40] = {0}, out[200];
    int put = 0;
    read_secret(name, sizeof name);
    int size = read_public(text, sizeof text), length = length_of(name, sizeof name);
    for (int place = 0; place < size; place++) {
        if (text[place] != '@') {
            out[put++] = text[place];
            continue;
        }
        for (int letter = 0; letter < length; letter++)
            out[put++] = '#';
    }
    write_output(out, put);
    return 0;
}
