/* A message of sixteen bytes and its tag, the public input: is the tag the HMAC-SHA-256 of the message under a key of
 * sixteen bytes, the secret? The comparison ends at the first difference. */
#include "flowcheck.h"
#include "hmac.h"

enum { MESSAGE = 16 };

static unsigned char key[KEY], message[MESSAGE], tag[HASH];

__attribute__((noinline)) static int is_genuine(void)
{
    hmac(key, message, MESSAGE);
    for (int place = 0; place < HASH; place++)
        if (digest[place] != tag[place])
            return 0;
    return 1;
}

int main(void)
{
    read_public(message, MESSAGE);
    read_public(tag, HASH);
    read_secret(key, KEY);
    write_output(is_genuine() ? "yes\n" : "no \n", 4);
    return 0;
}
