/* A free-standing guest: it adds constants, initialized data and memory that starts as zeros, and exits with the sum, 42. */

static const unsigned char constants[4] = {1, 2, 3, 4};
static volatile unsigned char data[4] = {8, 8, 8, 8};
static volatile unsigned char zeros[4];

void _start(void) {
    int sum = 0;
    for (int i = 0; i < 4; i++) {
        volatile const unsigned char *constant = &constants[i];
        sum += *constant + data[i] + zeros[i];
        zeros[i] = 1;
    }
    register int status __asm__("a0") = sum;
    register int number __asm__("a7") = 93;
    __asm__ volatile("ecall" : : "r"(status), "r"(number));
    __builtin_unreachable();
}
