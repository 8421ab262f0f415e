#!/usr/bin/env -S python3 -I -S
"""Stands in for the built program in the tests of the sweep: it answers a `check` by the bytes of the secrets alone.

The first byte of a secret says what crosses, the second whether it is rejected, and for what; the third may let the
call die: 1 the first time, 2 each time, 3 with the batch that makes it, the first time, 4 each time while the folder
`ill` is there. What differs between calls is kept in the folder that STAND_IN names. A public input of `slow` lets
each call take some time, `liar` lets equal crossings have other outputs, and `short` lets one have no bits; a cut of
`bad` is refused.

It answers a `bound` by the public input: there are as many outputs as it has bytes in fours, and it is unclear where
the first byte is 1. A cut of `slow` lets each call take some time; a third byte is as that of a secret."""
import os
import signal
import sys
import time

REASONS = """region 3 undeclared x5 at 0x00010000
region 3 undeclared 0x00020000 at 0x00010000
region 3 keep x8 before 0x00000001 after 0x00000002
region 3 call at 0x00010000
region 3 range 0 outside
guest illegal 0x00010000 word 0x00000000
guest load-outside 0x00010000 address 0xffffffff
guest output-limit 0x00010000
budget 8 needed 16
replay guest fetch-outside 0x00010000
replay region 3 range 0 outside
replay short 2
parted real 0x00010000 1 8 running replay 0x00010004 1 8 running
output index 0 real 1 replay 2
turns 1000000
secret-length cut 4 got 3""".split("\n")


def is_first(secret):
    """Whether a secret is asked about for the first time."""
    mark = os.path.join(os.environ["STAND_IN"], secret.hex())
    if os.path.exists(mark):
        return False
    open(mark, "w").close()
    return True


def die(secret):
    """Ends the process as the third byte of a secret says."""
    kind = secret[2] if len(secret) > 2 else 0
    if kind == 2 or kind == 1 and is_first(secret):
        os.kill(os.getpid(), signal.SIGKILL)
    if kind == 3 and is_first(secret):
        os.kill(os.getppid(), signal.SIGKILL)
    if kind == 4 and os.path.isdir(os.path.join(os.environ["STAND_IN"], "ill")):
        print("half of an answ", end="")
        sys.exit(1)


def verdict(secret, budget, public):
    """The line of a secret, without its number."""
    if len(secret) > 1 and secret[1]:
        return f"rejected {{}} {REASONS[(secret[1] - 1) % len(REASONS)]}"
    first = secret[0] if secret else 0
    if public == b"short" and first == 2:
        return "accepted {} bits 0 crossing - output 0 status 0"
    crossing = f"{first & (1 << budget) - 1:02x}" if budget else "-"
    output = len(secret) if public == b"liar" else 1
    return f"accepted {{}} bits {budget} crossing {crossing} output {output} status 0"


def bound(words):
    """Answers a `bound`."""
    public, cut = (open(name, "rb").read() for name in (words[1], words[2]))
    if cut == b"bad":
        print("refused 3 cut version")
        return 3
    if cut == b"slow":
        time.sleep(0.1)
    die(public)
    if public[:1] == b"\1":
        print("unclear path - bits 0 left 0 0x00010000 de mask 0x00000001")
        return 1
    typed = f" public {len(public)}" if "--any-public" in words else ""
    outputs = 1 + len(public) // 4
    bits = (outputs - 1).bit_length()
    print(f"bounded secret 4{typed} regions 0 paths {outputs} stopped 0 outputs {outputs} bits {bits}")
    return 0


def main():
    """Answers as `check` or `bound` does; the status."""
    words = [word for word in sys.argv[2:]]
    if sys.argv[1] == "bound":
        return bound(words)
    options = words.index("--turns")
    names = [words[1], words[2], *words[4:options]]
    public, cut, *secrets = [open(name, "rb").read() for name in names]
    if cut == b"bad":
        print("refused 3 cut version")
        return 3
    if public == b"slow":
        time.sleep(0.1)
    for secret in secrets:
        die(secret)
    lines = [verdict(secret, int(words[3]), public).format(number) for number, secret in enumerate(secrets, start=1)]
    accepted = sum(line.startswith("accepted") for line in lines)
    print("\n".join(lines))
    print(f"checked {len(lines)} accepted {accepted} budget {words[3]}")
    return int(accepted < len(lines))


if __name__ == "__main__":
    sys.exit(main())
