/* The start and the streams of a hosted guest, for picolibc.
 *
 * All of the secret is read before `main`. So no guest call is made where `secret` is read, and a region may enclose a
 * function that reads it. The output is kept until its buffer is full or the guest exits. */
#include "hosted.h"

#define FLOWCHECK_CALLS_ALONE
#include "../guests/flowcheck.h"

#include <stdlib.h>
#include <string.h>
#include <unistd.h>

enum { LONGEST_SECRET = 65536, BUFFER = 4096 };

int main(int count, char **words);

static char secret_bytes[LONGEST_SECRET], public_bytes[BUFFER], output_bytes[BUFFER];
static int secret_next, secret_end, public_next, public_end, output_end;

static int get_secret(FILE *file)
{
    (void)file;
    return secret_next < secret_end ? (unsigned char)secret_bytes[secret_next++] : _FDEV_EOF;
}

static int get_public(FILE *file)
{
    (void)file;
    if (public_next == public_end) {
        public_next = 0;
        public_end = read_public(public_bytes, BUFFER);
    }
    return public_next < public_end ? (unsigned char)public_bytes[public_next++] : _FDEV_EOF;
}

static int flush_output(FILE *file)
{
    (void)file;
    write_output(output_bytes, output_end);
    output_end = 0;
    return 0;
}

static int put_output(char byte, FILE *file)
{
    if (output_end == BUFFER)
        flush_output(file);
    output_bytes[output_end++] = byte;
    return 0;
}

static FILE public_file = FDEV_SETUP_STREAM(NULL, get_public, NULL, _FDEV_SETUP_READ);
static FILE secret_file = FDEV_SETUP_STREAM(NULL, get_secret, NULL, _FDEV_SETUP_READ);
static FILE output_file = FDEV_SETUP_STREAM(put_output, NULL, flush_output, _FDEV_SETUP_WRITE);
FILE *const stdin = &public_file;
FILE *const secret = &secret_file;
FILE *const stdout = &output_file;
FILE *const stderr = &output_file;

/* More memory for `malloc`, by the guest call for the break. */
void *sbrk(ptrdiff_t more)
{
    static char *end;
    if (!end)
        end = (char *)guest_call(CALL_BREAK, 0, NULL, 0);
    if ((char *)guest_call(CALL_BREAK, (int)(end + more), NULL, 0) != end + more)
        return (void *)-1;
    end += more;
    return end - more;
}

/* The end of `exit` and of `abort`. */
void _exit(int status)
{
    flush_output(stdout);
    exit_with(status);
}

/* Called by the start. */
__attribute__((used, noreturn)) static void begin(void)
{
    static char name[] = "guest", *words[] = {name, NULL};
    secret_end = read_secret(secret_bytes, LONGEST_SECRET);
    exit(main(1, words));
}

/* The start: gp for small data and tp for errno. sp is set already. */
__asm__(".section .text.init.enter, \"ax\", @progbits\n"
        ".globl _start\n"
        ".type _start, @function\n"
        "_start:\n"
        ".option push\n"
        ".option norelax\n"
        "    la gp, __global_pointer$\n"
        ".option pop\n"
        "    la tp, __tls_base\n"
        "    call begin\n"
        ".size _start, . - _start\n"
        ".text\n");
