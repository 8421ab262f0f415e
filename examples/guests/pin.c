/* A check of a PIN with a counter of tries.
 *
 * The secret is the PIN, four digits. The public input is what somebody types: tries of four digits, one after the other.
 * The guest answers "yes" as soon as a try is the PIN, and "no" after three tries that are not, or where the input ends.
 * The exit status is the number of tries that were made.
 */

enum { READ = 63, WRITE = 64, EXIT = 93 };
enum { PUBLIC = 0, OUTPUT = 1, SECRET = 3 };
enum { DIGITS = 4, TRIES = 3 };

static __attribute__((noinline)) int call(int a0, void *a1, int a2, int number)
{
    register int r0 __asm__("a0") = a0;
    register void *r1 __asm__("a1") = a1;
    register int r2 __asm__("a2") = a2;
    register int r7 __asm__("a7") = number;
    __asm__ volatile("ecall" : "+r"(r0) : "r"(r1), "r"(r2), "r"(r7) : "memory");
    return r0;
}

static int is_same(const unsigned char *one, const unsigned char *other)
{
    unsigned char difference = 0;
    for (int digit = 0; digit < DIGITS; digit++)
        difference |= one[digit] ^ other[digit];
    return difference == 0;
}

static int tries_until_right(const unsigned char *pin, int *is_right)
{
    unsigned char typed[DIGITS];
    int tries = 0;
    *is_right = 0;
    while (tries < TRIES && !*is_right && call(PUBLIC, typed, DIGITS, READ) == DIGITS) {
        tries++;
        *is_right = is_same(typed, pin);
    }
    return tries;
}

int main(void)
{
    unsigned char pin[DIGITS];
    int is_right;
    call(SECRET, pin, DIGITS, READ);
    int tries = tries_until_right(pin, &is_right);
    if (is_right)
        call(OUTPUT, "yes\n", 4, WRITE);
    else
        call(OUTPUT, "no\n", 3, WRITE);
    return tries;
}

__attribute__((noreturn)) void _start(void)
{
    call(main(), 0, 0, EXIT);
    for (;;) { }
}
