/* A date of birth, eight digits and the secret, beside today's, the public input: is the person eighteen or older? It
 * tells -1 for a date that is none, 0 for a person that is younger, 1 for one that is not. */
#include "flowcheck.h"

static const signed char days[16] __attribute__((aligned(16))) = {0, 31, 29, 31, 30, 31, 30, 31, 31, 30, 31, 30, 31};
static char birth[8], today[8];

static int number(const char *digits, int count)
{
    int value = 0;
    for (int place = 0; place < count; place++) {
        if (digits[place] < '0' || digits[place] > '9')
            return -1;
        value = 10 * value + digits[place] - '0';
    }
    return value;
}

__attribute__((noinline)) static int is_of_age(void)
{
    int year = number(birth, 4), month = number(birth + 4, 2), day = number(birth + 6, 2), place = month & 15;
    __asm__("" : "+r"(place)); /* or the compiler takes the mask away, since it knows that no month is above 12 */
    if (year < 1900 || month < 1 || month > 12 || day < 1 || day > days[place])
        return -1;
    int age = number(today, 4) - year;
    int now = number(today + 4, 4), then = 100 * month + day;
    if (then > now)
        age--;
    return age >= 18;
}

int main(void)
{
    read_public(today, sizeof today);
    read_secret(birth, sizeof birth);
    exit_with(is_of_age());
}
