#!/usr/bin/env python3
"""fuzz.py EXECUTABLE [--minutes N] [--first SEED] [--turns N]

Gives the built program files and words that are spoilt at random, for N minutes (10 without the option): program files,
region files, cuts of both versions, certificates, sources, public inputs, secrets and options, made of random trials of
the model, of the stories in examples and of guests that write over their own code or reach over the edges of memory.
Each answer must be one of the statuses, within the time limit and by no signal; a refusal must be one line. The status
and the text are those of the model for every command that it knows (all but `asm` and `list`; `list` must refuse what
the model's table of program files refuses, and what `asm` makes must be listed).

Prints how often each command had each kind of answer, how many calls were too long for the model, and last how many
agree and differ. The files and words of those that differ are kept in a folder that is named; then the status is 1.
Python 3 on Linux."""
import argparse
import collections
import json
import os
import pathlib
import pickle
import random
import re
import resource
import subprocess
import sys
import tempfile
import time
import traceback

TOOLS = pathlib.Path(__file__).resolve().parent.parent
sys.path[:0] = [str(TOOLS / "model"), str(TOOLS / "tables")]

from answers import answer_to  # noqa: E402
from measure_trials import measure_trial  # noqa: E402
from program_files import packed, plain_file  # noqa: E402
from put_rows import parts_of  # noqa: E402
from refusals import program_fault  # noqa: E402
from trials import random_trial  # noqa: E402
from words import ECALL, JALR, LOAD, immediate_word, store_word, upper_word  # noqa: E402

SECONDS, TURNS = 120, 400
MODEL_SECONDS, MODEL_BYTES = 30, 2_000_000_000
"""What the model may take for one call: where words name many turns it is slow, and keeps much of each."""
NUMBERS = [0, 1, 2, 3, 4, 7, 8, 15, 16, 31, 32, 33, 63, 64, 65, 127, 128, 255, 256, 4095, 4096, 65535, 65536, 65537,
           0x10000, 0x1000000, 0x7FFFFFFF, 0x80000000, 0xFFFFFFFC, 0xFFFFFFFF, 0x100000000, 2**64 - 1, 2**64]
"""Numbers at which something changes: widths, pages, limits and ends."""
STORES, LOADS, CALLS = (0, 1, 2), (0, 1, 2, 4, 5), (63, 64, 93, 214)


def in_time(made, *given):
    """What a function gives, found by a process of its own; None where that takes too long, or too much memory."""
    read_end, write_end = os.pipe()
    child = os.fork()
    if child == 0:
        os.close(read_end)
        resource.setrlimit(resource.RLIMIT_CPU, (MODEL_SECONDS, MODEL_SECONDS))
        resource.setrlimit(resource.RLIMIT_AS, (MODEL_BYTES, MODEL_BYTES))
        try:
            with os.fdopen(write_end, "wb") as pipe:
                pickle.dump(made(*given), pipe)
            os._exit(0)
        except MemoryError:
            os._exit(3)
        except BaseException:
            traceback.print_exc()
            os._exit(4)
    os.close(write_end)
    with os.fdopen(read_end, "rb") as pipe:
        told = pipe.read()
    status = os.waitstatus_to_exitcode(os.waitpid(child, 0)[1])
    if status == 4:
        sys.exit("the model failed")
    return pickle.loads(told) if status == 0 else None


class Dice(random.Random):
    """Random choices."""

    def happens(self, chance):
        return self.random() < chance

    def number(self):
        """A number near one at which something changes."""
        return max(0, self.choice(NUMBERS) + self.choice([0, 0, 0, -1, 1, 4, -4]))


def spoilt_bytes(dice, data):
    """Bytes with one change: some set, taken out, put in, repeated or moved."""
    if not data:
        return bytes(dice.randrange(256) for _ in range(dice.randrange(1, 9)))
    data, at, count = bytearray(data), dice.randrange(len(data)), dice.choice([1, 1, 1, 2, 4, 16, 300])
    kind = dice.randrange(7)
    if kind == 0:
        data[at] ^= 1 << dice.randrange(8)
    elif kind == 1:
        data[at] = dice.choice([0, 1, 0x0A, 0x20, 0x2D, 0x7F, 0x80, 0xFF, dice.randrange(256)])
    elif kind == 2:
        del data[at : at + count]
    elif kind == 3:
        data[at:at] = bytes(dice.randrange(256) for _ in range(count))
    elif kind == 4:
        data[at:at] = data[at : at + count]
    elif kind == 5:
        data = data[:at]
    else:
        width = dice.choice([2, 4])
        data[at : at + width] = (dice.number() % (1 << 8 * width)).to_bytes(width, "little")
    return bytes(data)


def spoilt_text(dice, data):
    """A text with one change: a number, a word, a line, or bytes."""
    kind, lines = dice.randrange(6), data.split(b"\n")
    at = dice.randrange(len(lines))
    if kind == 0:
        found = list(re.finditer(rb"0x[0-9a-f]{8}|\d+", data))
        if found:
            one = dice.choice(found)
            number = dice.number()
            text = f"0x{number % 2**32:08x}" if one[0].startswith(b"0x") else str(number)
            return data[: one.start()] + text.encode() + data[one.end() :]
    if kind == 1:
        words = re.findall(rb"\S+", data)
        found = list(re.finditer(rb"\S+", data))
        if found:
            one = dice.choice(found)
            return data[: one.start()] + dice.choice(words) + data[one.end() :]
    if kind == 2:
        lines[at:at] = [dice.choice(lines)]
    elif kind == 3:
        del lines[at]
    elif kind == 4:
        other = dice.randrange(len(lines))
        lines[at], lines[other] = lines[other], lines[at]
    else:
        return spoilt_bytes(dice, data)
    return b"\n".join(lines)


def number_words(register, value):
    """A register gets a number."""
    return [upper_word(register, value + 0x800 >> 12), immediate_word(0, register, register, value)]


def edge_guest(dice):
    """A guest that stores, loads, jumps and calls near its own code and at the edges of memory."""
    base = 0x10000
    places = [base, base + 0x10, base + 0xFFFFFC, base + 0xFFFFFF, base + 0x1000000, base - 1, 0, 0xFFFFFFFC,
              base + 0xFFC, base + 0x800000]
    code = []
    for _ in range(dice.randint(2, 8)):
        register, value = dice.choice([10, 11, 12, 5, 6]), dice.choice(places) + dice.choice([0, 0, 1, 2, 3, -1, -4])
        code += number_words(register, value % 2**32)
        kind = dice.randrange(6)
        if kind == 0:
            value, offset = dice.randrange(32), dice.choice([0, 1, -1, 2047, -2048])
            code.append(store_word(dice.choice(STORES), register, value, offset))
        elif kind == 1:
            target, offset = dice.randrange(32), dice.choice([0, 1, -4, 2047])
            code.append(immediate_word(dice.choice(LOADS), target, register, offset, LOAD))
        elif kind == 2:
            code += [*number_words(17, dice.choice(CALLS)), *number_words(12, dice.number() % 2**32), ECALL]
        elif kind == 3:
            code.append(immediate_word(0, dice.choice([0, 1]), register, dice.choice([0, 4, 2]), JALR))
        elif kind == 4:
            word = dice.choice(code) if dice.happens(0.5) else dice.getrandbits(32)
            code += number_words(6, word) + number_words(5, base + 4 * dice.randrange(len(code) + 6))
            code.append(store_word(2, 5, 6, 0))
        else:
            code.append(dice.getrandbits(32))
    code += [*number_words(10, 3), *number_words(17, 93), ECALL]
    return plain_file(packed([word & 0xFFFFFFFF for word in code]), base)


class Corpus:
    """Files to begin with, by what they are."""

    def __init__(self):
        examples = TOOLS.parent / "examples"
        self.sources = [path.read_bytes() for path in examples.rglob("*.s")]
        table = TOOLS.parent / "crates" / "file_rows" / "stdin"
        self.lines = [line.split(" -> ")[0] for line in parts_of(table)["asm"]]
        self.certificates = []

    def trial(self, dice, seed):
        """The files of a trial, and its words behind the command."""
        if dice.happens(0.5):
            files, words = random_trial(seed, has_patterns=dice.happens(0.5))
        else:
            files, options = measure_trial(seed)
            words = ["program", "public", "secret", *(word for option in options for word in option)]
            files["cut"] = b"flowcheck-cut 1\nsecret %d\nbits 0\nend\n" % len(files["secret"])
        if dice.happens(0.2):
            files["program"] = edge_guest(dice)
        return files, words

    def source(self, dice):
        """The text of a source."""
        if dice.happens(0.3):
            return dice.choice(self.sources)
        return "".join(f"{dice.choice(self.lines)}\n" for _ in range(dice.randrange(1, 12))).encode()


def spoil(dice, files):
    """Spoils up to three of the files."""
    for _ in range(dice.choice([0, 1, 1, 1, 2, 3])):
        name = dice.choice(list(files))
        is_text = name in ("cut", "regions", "certificate", "source")
        files[name] = (spoilt_text if is_text and dice.happens(0.8) else spoilt_bytes)(dice, files[name])


def with_turns(dice, words, turns):
    """The words with a small limit of turns, if they name none."""
    if any(word.split("=")[0] == "--turns" for word in words):
        return words
    return [*words, "--turns", str(dice.choice([1, 2, 10, turns, turns, turns]))]


def call_of(dice, corpus, seed, turns):
    """The files of a call and its words."""
    kind = dice.choice(["check"] * 4 + ["taint"] * 2 + ["bound"] * 2 + ["measure"] * 2
                       + ["graph", "report", "learn", "verify", "migrate", "asm", "list"])
    if kind == "asm":
        files = {"source": corpus.source(dice)}
        words = ["asm", "source"]
    elif kind == "verify" and corpus.certificates:
        files, words = {"certificate": dice.choice(corpus.certificates)}, ["verify", "certificate"]
    else:
        files, words = corpus.trial(dice, seed)
        if kind in ("check", "taint"):
            if words[0:3] == ["program", "public", "secret"]:
                words = ["program", "public", "cut", str(dice.choice([0, 8, 32])), *words[2:]]
            rules = ["--rules", "2"] if kind == "taint" and dice.happens(0.4) else []
            words = with_turns(dice, [kind, *words, *rules], turns)
        elif kind == "bound":
            if words[0:3] != ["program", "public", "cut"]:
                words = ["program", "public", "cut", str(dice.choice([0, 8, 32]))]
            rest = ["--regions", "regions"] if "regions" in files else []
            rest += ["--rules", "2"] if dice.happens(0.4) else []
            rest += ["--list"] if dice.happens(0.5) else []
            rest += ["--paths", str(dice.choice([1, 2, 100]))]
            words = with_turns(dice, [kind, *words[:4], *rest], turns)
        elif kind == "learn":
            files.setdefault("regions", b'{"regions":[]}')
            secret = "secret" if "secret" in files else "secret1"
            words = with_turns(dice, ["learn", "program", "public", secret, "regions"], turns)
        elif kind in ("migrate", "list"):
            words = [kind, "cut" if kind == "migrate" else "program"]
        else:
            kind = "graph" if kind == "verify" else kind
            secret = "secret" if "secret" in files else "secret1"
            rest = [kind, "program", "public", secret]
            rest += ["--regions", "regions"] if "regions" in files else []
            rest += ["--rules", "2"] if dice.happens(0.4) else []
            rest += ["--json"] if kind == "report" and dice.happens(0.5) else []
            rest += ["--cut", "2"] if kind == "measure" and dice.happens(0.3) else []
            words = with_turns(dice, rest, turns)
    if dice.happens(0.03):
        words[dice.randrange(1, len(words))] = dice.choice(["none", "", "-", "--turns", "-1", "00", str(dice.number())])
    spoil(dice, files)
    return files, words


class Program:
    """The built program, run in a folder with the files of a call."""

    def __init__(self, executable):
        self.executable = executable
        self.unjudged = 0

    def run(self, files, words):
        """The status and the bytes that are put; no status where there is no answer in time."""
        with tempfile.TemporaryDirectory() as folder:
            for name, data in files.items():
                pathlib.Path(folder, name).write_bytes(data)
            try:
                done = subprocess.run([self.executable, *words], cwd=folder, stdout=subprocess.PIPE,
                                      stderr=subprocess.DEVNULL, timeout=SECONDS)
            except subprocess.TimeoutExpired:
                return None, b""
        return done.returncode, done.stdout

    def wrong(self, files, words):
        """What is wrong with the answer to a call, or None; and the answer."""
        status, text = self.run(files, words)
        if status is None or not 0 <= status <= 6:
            return f"status {status}", status, text
        if status >= 2 and (text.count(b"\n") != 1 or not text.startswith(b"refused %d " % status)):
            return "a refusal that is not one line", status, text
        return self.other_wrong(files, words, status, text), status, text

    def other_wrong(self, files, words, status, text):
        """What differs from the model."""
        if words[0] == "asm":
            listed = status == 0 and self.run({"program": text}, ["list", "program"])[0] != 0
            return "what is assembled is not listed" if listed else None
        if words[0] == "list":
            fault = program_fault(files[words[1]]) if words[1] in files else None
            is_wrong = words[1] in files and (f"refused 3 program {fault}\n".encode() != text if fault else status != 0)
            return f"the model has {fault}" if is_wrong else None
        given = in_time(answer_to, dict(files), words)
        if given is None:
            self.unjudged += 1
            return None
        if words[0] == "graph" and given[0] == status == 0:
            verified = self.run({"certificate": text}, ["verify", "certificate"])
            return None if verified[0] == 0 and text.split()[3] == given[1].encode().split()[3] else "not verified"
        return None if given == (status, text.decode(errors="replace")) else f"the model has {given}"


def main():
    """Tries spoilt files for so many minutes; the status, 1 where an answer is wrong."""
    parser = argparse.ArgumentParser(description=__doc__, formatter_class=argparse.RawDescriptionHelpFormatter)
    parser.add_argument("executable", type=os.path.abspath)
    parser.add_argument("--minutes", type=float, default=10)
    parser.add_argument("--first", type=int, default=1)
    parser.add_argument("--turns", type=int, default=TURNS)
    args = parser.parse_args()
    program, corpus, kinds = Program(args.executable), Corpus(), collections.Counter()
    end, seed, differ, longest, kept = time.monotonic() + 60 * args.minutes, args.first, 0, 0.0, None
    while time.monotonic() < end:
        dice = Dice(f"fuzz {seed}")
        files, words = call_of(dice, corpus, seed, args.turns)
        begin = time.monotonic()
        wrong, status, text = program.wrong(files, words)
        longest = max(longest, time.monotonic() - begin)
        kinds[words[0], status, b" ".join(text.split()[2:4]).decode(errors="replace") if status in (3, 4) else ""] += 1
        if words[0] == "graph" and status == 0 and len(corpus.certificates) < 200 and len(text) < 100_000:
            corpus.certificates.append(text)
        if wrong:
            differ += 1
            kept = kept or pathlib.Path(tempfile.mkdtemp(prefix="fuzz-"))
            place = kept / str(seed)
            place.mkdir()
            for name, data in files.items():
                (place / name).write_bytes(data)
            (place / "words.json").write_text(json.dumps(words))
            (place / "wrong").write_text(f"{wrong}\nstatus {status}\n{text[:2000]!r}\n")
        seed += 1
    for (command, status, what), count in sorted(kinds.items(), key=lambda kind: [str(part) for part in kind[0]]):
        print(f"{command} {status} {what}".rstrip(), count)
    print(f"seeds {args.first} to {seed - 1}, the longest call {longest:.1f} s with the model's answer")
    print(f"{program.unjudged} too long for the model, whose status and form alone were looked at")
    print(f"{seed - args.first - differ} agree, {differ} differ" + (f": {kept}" if kept else ""))
    return int(differ > 0)


if __name__ == "__main__":
    sys.exit(main())
