/* What a guest in C or C++ needs, for gcc and clang: the calls, the start, and functions that compilers call by
 * themselves.
 *
 * Include it in each file that uses it, and write `int main(void)` in one. The guest exits with what main returns. In
 * C++ there are no exceptions, no library and no constructors of global objects. With FLOWCHECK_CALLS_ALONE defined
 * before it there are the calls alone, for guests with a start and a C library, as ../hosted/hosted.c.
 *
 *     gcc:   riscv64-unknown-elf-gcc -march=rv32im -mabi=ilp32 -O2 -g -static -nostartfiles -nostdlib -ffreestanding
 *                guest.c -lgcc -o guest.elf
 *     clang: clang --target=riscv32-unknown-elf -march=rv32im -mabi=ilp32 -O2 -g -static -nostdlib -ffreestanding
 *                -fuse-ld=lld guest.c -o guest.elf
 *
 * The Makefile beside this file runs these, and for C++ with -fno-exceptions -fno-rtti -fno-threadsafe-statics.
 */
#ifndef FLOWCHECK_H
#define FLOWCHECK_H

#include <stddef.h>
#include <stdint.h>

enum { CALL_READ = 63, CALL_WRITE = 64, CALL_EXIT = 93, CALL_BREAK = 214 };
enum { DESCRIPTOR_PUBLIC = 0, DESCRIPTOR_OUTPUT = 1, DESCRIPTOR_SECRET = 3 };

#ifdef __cplusplus
extern "C" {
#endif

/* One guest call, with its number in a7 and its arguments in a0, a1 and a2. */
static inline int guest_call(int number, int first, const void *second, size_t third)
{
    register int a0 __asm__("a0") = first;
    register const void *a1 __asm__("a1") = second;
    register size_t a2 __asm__("a2") = third;
    register int a7 __asm__("a7") = number;
    __asm__ volatile("ecall" : "+r"(a0) : "r"(a1), "r"(a2), "r"(a7) : "memory");
    return a0;
}

/* The next bytes of the public input, at most so many; their number, or a negative number where `to` is no memory. */
static inline int read_public(void *to, size_t most)
{
    return guest_call(CALL_READ, DESCRIPTOR_PUBLIC, to, most);
}

/* The next bytes of the secret, likewise. */
static inline int read_secret(void *to, size_t most)
{
    return guest_call(CALL_READ, DESCRIPTOR_SECRET, to, most);
}

/* Writes so many bytes to the output. */
static inline void write_output(const void *from, size_t count)
{
    guest_call(CALL_WRITE, DESCRIPTOR_OUTPUT, from, count);
}

/* Ends the guest. The status is seen as the output is: its low eight bits count. */
__attribute__((noreturn)) static inline void exit_with(int status)
{
    guest_call(CALL_EXIT, status, 0, 0);
    for (;;) { }
}

#ifndef FLOWCHECK_CALLS_ALONE

int main(void);

/* Compilers call these four by themselves. They are weak, so that a guest may bring its own, and work byte by byte; the
 * empty statement keeps a compiler from making a call of the loop itself. memcmp stops at the first difference, which
 * gives away a bit for each secret byte that it compares. */
#define FLOWCHECK_MEMORY __attribute__((weak, noinline, section(".text.flowcheck_memory")))
#define FLOWCHECK_STEP __asm__ volatile("" : : : "memory")

FLOWCHECK_MEMORY void *memcpy(void *to, const void *from, size_t count)
{
    unsigned char *target = (unsigned char *)to;
    const unsigned char *source = (const unsigned char *)from;
    for (size_t index = 0; index < count; index++) {
        target[index] = source[index];
        FLOWCHECK_STEP;
    }
    return to;
}

FLOWCHECK_MEMORY void *memmove(void *to, const void *from, size_t count)
{
    unsigned char *target = (unsigned char *)to;
    const unsigned char *source = (const unsigned char *)from;
    if ((uintptr_t)to <= (uintptr_t)from)
        return memcpy(to, from, count);
    while (count--) {
        target[count] = source[count];
        FLOWCHECK_STEP;
    }
    return to;
}

FLOWCHECK_MEMORY void *memset(void *to, int byte, size_t count)
{
    unsigned char *target = (unsigned char *)to;
    for (size_t index = 0; index < count; index++) {
        target[index] = (unsigned char)byte;
        FLOWCHECK_STEP;
    }
    return to;
}

FLOWCHECK_MEMORY int memcmp(const void *one, const void *other, size_t count)
{
    const unsigned char *first = (const unsigned char *)one, *second = (const unsigned char *)other;
    for (size_t index = 0; index < count; index++)
        if (first[index] != second[index])
            return first[index] < second[index] ? -1 : 1;
    return 0;
}

/* The heap of malloc, where a guest takes it from a C library: an array, so that it makes no guest call. FLOWCHECK_HEAP
 * says how many bytes it has. There is none in a guest that does not call malloc. */
#ifndef FLOWCHECK_HEAP
#define FLOWCHECK_HEAP 65536
#endif

__attribute__((weak, noinline, section(".text.flowcheck_heap"))) void *sbrk(ptrdiff_t count)
{
    __attribute__((section(".bss.flowcheck_heap"), aligned(16))) static char heap[FLOWCHECK_HEAP];
    static size_t used;
    if (count < 0 ? (size_t)-count > used : (size_t)count > sizeof heap - used)
        return (void *)-1;
    char *begin = heap + used;
    used += (size_t)count;
    return begin;
}

/* The start: sets gp, which GNU ld's relaxation counts on, calls main, and exits with what it returns. It is weak, as
 * several files may bring it. */
__asm__(".section .text._start, \"ax\", @progbits\n"
        ".weak _start\n"
        ".type _start, @function\n"
        "_start:\n"
        ".option push\n"
        ".option norelax\n"
        "    la gp, __global_pointer$\n"
        ".option pop\n"
        "    call main\n"
        "    li a7, 93\n"
        "    ecall\n"
        ".size _start, . - _start\n"
        ".text\n");

#endif

#ifdef __cplusplus
}
#endif

#endif
