/* A login whose password, twelve bytes and the secret, is hashed by MD5 a thousand times before it is compared with
 * what is stored, the public input. The comparison ends at the first difference. */
#include "flowcheck.h"

enum { PASSWORD = 12, DIGEST = 16, TIMES = 1000 };

static const unsigned char turns[4][4] = {{7, 12, 17, 22}, {5, 9, 14, 20}, {4, 11, 16, 23}, {6, 10, 15, 21}};
static const uint32_t sines[64] = {
    0xd76aa478, 0xe8c7b756, 0x242070db, 0xc1bdceee, 0xf57c0faf, 0x4787c62a, 0xa8304613, 0xfd469501,
    0x698098d8, 0x8b44f7af, 0xffff5bb1, 0x895cd7be, 0x6b901122, 0xfd987193, 0xa679438e, 0x49b40821,
    0xf61e2562, 0xc040b340, 0x265e5a51, 0xe9b6c7aa, 0xd62f105d, 0x02441453, 0xd8a1e681, 0xe7d3fbc8,
    0x21e1cde6, 0xc33707d6, 0xf4d50d87, 0x455a14ed, 0xa9e3e905, 0xfcefa3f8, 0x676f02d9, 0x8d2a4c8a,
    0xfffa3942, 0x8771f681, 0x6d9d6122, 0xfde5380c, 0xa4beea44, 0x4bdecfa9, 0xf6bb4b60, 0xbebfbc70,
    0x289b7ec6, 0xeaa127fa, 0xd4ef3085, 0x04881d05, 0xd9d4d039, 0xe6db99e5, 0x1fa27cf8, 0xc4ac5665,
    0xf4292244, 0x432aff97, 0xab9423a7, 0xfc93a039, 0x655b59c3, 0x8f0ccc92, 0xffeff47d, 0x85845dd1,
    0x6fa87e4f, 0xfe2ce6e0, 0xa3014314, 0x4e0811a1, 0xf7537e82, 0xbd3af235, 0x2ad7d2bb, 0xeb86d391};
static uint32_t block[16], digest[4], stored[4];
static unsigned char password[PASSWORD];

static void hash(void)
{
    uint32_t a = 0x67452301, b = 0xefcdab89, c = 0x98badcfe, d = 0x10325476;
    for (int step = 0; step < 64; step++) {
        uint32_t mixed = step < 16 ? (b & c) | (~b & d) : step < 32 ? (d & b) | (~d & c)
            : step < 48 ? b ^ c ^ d : c ^ (b | ~d);
        int word = step < 16 ? step : step < 32 ? 5 * step + 1 : step < 48 ? 3 * step + 5 : 7 * step;
        mixed += a + sines[step] + block[word % 16];
        a = d;
        d = c;
        c = b;
        int places = turns[step / 16][step % 4];
        b += mixed << places | mixed >> (32 - places);
    }
    digest[0] = a + 0x67452301;
    digest[1] = b + 0xefcdab89;
    digest[2] = c + 0x98badcfe;
    digest[3] = d + 0x10325476;
}

/* A block of one digest and the password, with the padding of RFC 1321. */
static void fill(void)
{
    for (int word = 0; word < 4; word++)
        block[word] = digest[word];
    for (int word = 0; word < 3; word++)
        block[4 + word] = (uint32_t)password[4 * word] | (uint32_t)password[4 * word + 1] << 8
            | (uint32_t)password[4 * word + 2] << 16 | (uint32_t)password[4 * word + 3] << 24;
    block[7] = 0x80;
    block[14] = 8 * (DIGEST + PASSWORD);
}

__attribute__((noinline)) static int is_right(void)
{
    for (int time = 0; time < TIMES; time++) {
        fill();
        hash();
    }
    for (int word = 0; word < 4; word++)
        if (digest[word] != stored[word])
            return 0;
    return 1;
}

int main(void)
{
    read_public(stored, sizeof stored);
    read_secret(password, PASSWORD);
    write_output(is_right() ? "yes\n" : "no \n", 4);
    return 0;
}
