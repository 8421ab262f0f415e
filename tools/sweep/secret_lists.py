"""The lists of secrets, or of public inputs, that a sweep takes: the files of a folder, the lines of a file, or a
generator's."""
import hashlib
import os

MOST_BYTES = 65_536
MOST_PUBLIC_BYTES = 1_048_576
SHOWN_BYTES = 32


class Refused(Exception):
    """What is asked for is not done, for the reason that is told."""


class Folder:
    """Each file of a folder is a secret, in the order of the names."""

    def __init__(self, path):
        self.path = path
        self.names = sorted(entry.name for entry in os.scandir(path) if entry.is_file())
        self.text = "the files of a folder"

    def __iter__(self):
        for name in self.names:
            with open(os.path.join(self.path, name), "rb") as file:
                yield file.read(MOST_PUBLIC_BYTES + 1)


class Lines:
    """Each line of a file is a secret in hexadecimal; a dash stands for no bytes."""

    names = None

    def __init__(self, path):
        self.path = path
        self.text = "the lines of a file"

    def __iter__(self):
        with open(self.path, "rb") as file:
            for number, line in enumerate(file, start=1):
                try:
                    word = line.decode("ascii").rstrip("\r\n")
                    secret = b"" if word == "-" else bytes.fromhex(word)
                    if not word or any(byte.isspace() for byte in word):
                        raise ValueError
                except ValueError:
                    raise Refused(f"{self.path}: line {number} is no secret in hexadecimal") from None
                yield secret


class Digits:
    """All strings of so many decimal digits, in ASCII, ascending."""

    names = None

    def __init__(self, length):
        self.length = length
        self.text = f"all strings of {length} digits"

    def __iter__(self):
        return (b"%0*d" % (self.length, number) for number in range(10**self.length))


class Random:
    """So many secrets of so many bytes: the beginnings of SHAKE-256 of `SEED 0`, `SEED 1` and so on. They may repeat.
    """

    names = None

    def __init__(self, count, size, seed):
        self.count, self.size, self.seed = count, size, seed
        self.text = f"{count} random secrets of {size} bytes, seed {seed}"

    def __iter__(self):
        return (hashlib.shake_256(b"%d %d" % (self.seed, number)).digest(self.size) for number in range(self.count))


class Lengths:
    """A public input of each length from one to another, of zeros: where the public input may be any, only its length
    counts."""

    names = None

    def __init__(self, first, last):
        self.first, self.last = first, last
        self.text = f"the lengths {first} to {last}"

    def __iter__(self):
        return (bytes(length) for length in range(self.first, self.last + 1))


def lists_of(args):
    """The list that the words of the sweep ask for."""
    if getattr(args, "lengths", None) is not None:
        return Lengths(*args.lengths)
    if args.digits is not None:
        return Digits(args.digits)
    if args.random is not None:
        return Random(args.random, args.size, args.seed)
    return Folder(args.secrets) if os.path.isdir(args.secrets) else Lines(args.secrets)


def batches(secrets, size, is_public=False):
    """The batches of a list, each the bytes of its file: so many lines of hexadecimal, fewer in the last."""
    lines = []
    most, name, command = MOST_BYTES, "secret", "check"
    if is_public:
        most, name, command = MOST_PUBLIC_BYTES, "public input", "bound"
    for number, secret in enumerate(secrets, start=1):
        if len(secret) > most:
            raise Refused(f"{name} {number} has more than {most} bytes, the limit of {command}")
        lines.append(secret.hex() or "-")
        if len(lines) == size:
            yield ("\n".join(lines) + "\n").encode()
            lines = []
    if lines:
        yield ("\n".join(lines) + "\n").encode()


def shown(line):
    """A secret of a batch as the results name it: its hexadecimal, of a long one the beginning."""
    return line if len(line) <= 2 * SHOWN_BYTES else f"{line[: 2 * SHOWN_BYTES]}..."
