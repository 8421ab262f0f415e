"""The public inputs and secrets that are tried of a guest that is bounded."""
from programs import random_bytes

PUBLICS, SECRETS_EACH = 20, 3


def near(dice, public, length):
    """A secret whose bytes are those of the public input, as far as there are some, with perhaps a bit turned over."""
    secret = bytearray((public + random_bytes(dice, length))[:length])
    if secret and dice.random() < 0.5:
        secret[dice.randrange(length)] ^= 1 << dice.randrange(8)
    return bytes(secret)


def tried_pairs(dice, task, count):
    """Each public input that is tried, with its secrets: the one that is given, or several where it may be any."""
    length = task.cut.secret_length
    if not task.is_any_public:
        return [(task.public, [random_bytes(dice, length) for _ in range(count)])]
    pairs = []
    for _ in range(PUBLICS):
        public = random_bytes(dice, len(task.public))
        secrets = [random_bytes(dice, length) for _ in range(SECRETS_EACH - 1)]
        pairs.append((public, [*secrets, near(dice, public, length)]))
    return pairs
