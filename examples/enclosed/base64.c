/* Sixteen letters of base64, the secret, are decoded by a table. What is told is how many bytes they are, or that they
 * are none. */
#include "flowcheck.h"

enum { LETTERS = 16, NONE = 64, END = 65 };

static unsigned char values[256] __attribute__((aligned(256)));
static unsigned char letters[LETTERS], bytes[LETTERS];

static void make_table(void)
{
    for (int letter = 0; letter < 256; letter++)
        values[letter] = NONE;
    for (int value = 0; value < 26; value++) {
        values['A' + value] = (unsigned char)value;
        values['a' + value] = (unsigned char)(26 + value);
    }
    for (int value = 0; value < 10; value++)
        values['0' + value] = (unsigned char)(52 + value);
    values['+'] = 62;
    values['/'] = 63;
    values['='] = END;
}

/* The number of bytes, or 15 where a letter is none or stands behind the end. */
__attribute__((noinline)) static int decode(void)
{
    int count = 0, ends = 0;
    for (int place = 0; place < LETTERS; place += 4) {
        uint32_t word = 0;
        for (int at = 0; at < 4; at++) {
            unsigned value = values[letters[place + at]];
            if (value == NONE || (ends && value != END) || (value == END && place + at < LETTERS - 2))
                return 15;
            ends += value == END;
            word = word << 6 | (value & 63);
        }
        for (int at = 0; at < 3 - ends; at++)
            bytes[count++ & 15] = (unsigned char)(word >> (16 - 8 * at));
    }
    return count;
}

int main(void)
{
    make_table();
    read_secret(letters, LETTERS);
    return decode() & 15;
}
