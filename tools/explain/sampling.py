"""Secrets that are drawn at random: what outputs their runs have, and which of them break a region."""
import concurrent.futures
import os
import random
import shlex
import shutil
import tempfile

from answering import script_words
from cuts import Cut
from region_finding import is_form
from run_facts import read
from running import QEMU, output_by_qemu
from verdicts import MOST_BUDGET, real_run

MOST_RUNS, MOST_TRUSTED, MOST_CHECKED, SECONDS = 1000, 200, 64, 10
CLASSES = (b"0123456789", b"abcdefghijklmnopqrstuvwxyz", b"ABCDEFGHIJKLMNOPQRSTUVWXYZ")
ANY = bytes(range(256))


def drawn(count, length, known=(), public=b"", seed=1):
    """So many secrets of a length, drawn by a seed, or all where there are not more: in turns of any bytes, of bytes of
    the kinds that a known secret has, of its own bytes, near to it, and of pieces of the public input."""
    if 256**length <= count:
        return [number.to_bytes(length, "little") for number in range(256**length)]
    dice = random.Random(f"secrets {seed} {length}")
    known = [secret for secret in known if len(secret) == length]
    ways = [any_of, kinds_of, own_of, near_of] if known else [any_of, kinds_of]
    ways += [piece_of] if public else []
    return [ways[number % len(ways)](dice, length, known, public) for number in range(count)]


def any_of(dice, length, _, __):
    """Any bytes."""
    return dice.randbytes(length)


def kinds_of(dice, length, known, _):
    """Bytes of the kinds of a known secret, digits for digits and so on; without one, all of one kind."""
    if known:
        return bytes(dice.choice(class_of(byte)) for byte in dice.choice(known))
    kind = dice.choice(CLASSES)
    return bytes(dice.choice(kind) for _ in range(length))


def class_of(byte):
    """The bytes of the kind of a byte."""
    return next((kind for kind in CLASSES if byte in kind), ANY)


def own_of(dice, length, known, _):
    """Bytes that known secrets have."""
    return bytes(dice.choices(dice.choice(known), k=length))


def near_of(dice, length, known, _):
    """A known secret, of which a few bytes are others."""
    secret = bytearray(dice.choice(known))
    for _ in range(dice.randint(1, min(3, length))):
        place = dice.randrange(length)
        secret[place] = dice.choice(dice.choice((ANY, class_of(secret[place]), b"\0")))
    return bytes(secret)


def piece_of(dice, length, _, public):
    """A piece of the public input, filled up with zeros."""
    first = dice.randrange(max(len(public) - length + 1, 1))
    return public[first : first + length].ljust(length, b"\0")


class Sample:
    """The runs on secrets that are drawn, by qemu beside other work, or by the model when `finish` is called. `outputs`
    has the different outputs so far, `run` how many runs were made, and `ended` how many of them exited."""

    def __init__(self, program, inputs, length, known, is_any_public=False, count=MOST_RUNS):
        self.program, self.inputs, self.turns = program, inputs, int(inputs.option("--turns") or 1_000_000)
        public = read(inputs.public)
        self.secrets = [*known, *drawn(count - len(known), length, known, public)]
        self.publics = drawn(len(self.secrets), len(public), [public], seed=2) if is_any_public else [public]
        self.outputs, self.run, self.ended, self.is_over, self.pool = set(), 0, 0, False, None
        if shutil.which(QEMU):
            self.folder = tempfile.TemporaryDirectory(prefix="runs-")
            self.copied = shutil.copyfile(inputs.program, self.path("program"))
            os.chmod(self.copied, 0o700)
            self.pool = concurrent.futures.ThreadPoolExecutor(max((os.cpu_count() or 2) - 1, 1))
            self.runs = [self.pool.submit(self.run_by_qemu, number) for number in range(len(self.secrets))]

    def path(self, name):
        """The path of a file of the runs."""
        return os.path.join(self.folder.name, name)

    def inputs_of(self, number):
        """The public input and the secret of a run."""
        return self.publics[number % len(self.publics)], self.secrets[number]

    def run_by_qemu(self, number):
        """Makes a run by qemu."""
        names = [self.path(f"{kind}{number}") for kind in ("public", "secret")]
        for name, data in zip(names, self.inputs_of(number)):
            with open(name, "wb") as file:
                file.write(data)
        self.note(output_by_qemu(self.copied, *names, SECONDS))

    def run_by_model(self, number):
        """Makes a run by the model."""
        real = real_run(self.program.image, *self.inputs_of(number), [], self.turns)
        self.note((bytes(real.guest.output), real.ending[1]) if real.ending[0] == "exited" else None)

    def note(self, output):
        """Counts a run."""
        self.run += 1
        if output:
            self.ended += 1
            self.outputs.add(output)

    def finish(self):
        """Waits for the runs that are begun, or makes those that are left by the model."""
        if self.pool:
            concurrent.futures.wait(self.runs)
        while not self.pool and self.run < len(self.secrets):
            self.run_by_model(self.run)

    def stop(self):
        """Makes no more runs, and waits for none."""
        if self.pool:
            self.is_over = True
            self.pool.shutdown(wait=False, cancel_futures=True)

    def missing(self, patterns):
        """Outputs of these runs that are not of a list of patterns."""
        exact = {(pattern.written, pattern.status) for pattern in patterns}
        free = [pattern for pattern in patterns if pattern.free]
        others = [one for one in list(self.outputs) if one not in exact]
        return [one for one in others if not any(pattern.holds(*one) for pattern in free)]

    def words(self, most):
        """What the runs say of the number of outputs: `most` is how many there are at most, None for no bound."""
        least, runs = len(self.outputs), f"{self.run:,} random secret{'' if self.run == 1 else 's'}"
        told = f"{runs} gave {least:,} different output{'' if least == 1 else 's'}"
        if not least:
            return f"None of {runs} came to an end."
        if most == least:
            return f"{told}: so {least:,} it is, and no fewer."
        return f"{told}: so there are {least:,} " + ("or more." if most is None else f"to {most:,}.")


class Trust:
    """How many of some secrets break each region of a file: `check` judges each with all bits of its reads crossing, so
    that the replay is the run itself and nothing but the run is judged."""

    def __init__(self, asked, inputs, program, secrets):
        self.asked, self.inputs, self.program = asked, inputs, program
        self.secrets, self.broken, self.breaking = secrets, {}, []
        self.length = len(secrets[0]) if secrets else 0
        with tempfile.TemporaryDirectory(prefix="trust-") as folder:
            self.cut = os.path.join(folder, "cut")
            with open(self.cut, "w", encoding="utf-8") as file:
                file.write(self.reads_cut().text())
            for first in range(0, len(secrets), MOST_CHECKED):
                self.judge(folder, secrets[first : first + MOST_CHECKED])

    def reads_cut(self):
        """The cut at which all bits of the secret cross where they are read."""
        reads = [address for address in self.program.addresses() if is_form(self.program.instruction(address), "call")]
        return Cut(self.length, 0, [], {(0, address, "in"): ([], [(1, 255)]) for address in reads})

    def judge(self, folder, secrets):
        """Judges so many secrets as a call takes."""
        names = [os.path.join(folder, f"secret{number}") for number in range(len(secrets))]
        for name, secret in zip(names, secrets):
            with open(name, "wb") as file:
                file.write(secret)
        budget = str(min(8 * self.length, MOST_BUDGET))
        words = ["check", self.inputs.program, self.inputs.public, self.cut, budget, *names]
        _, text = self.asked.answer([*words, *self.inputs.without("--rules", "--paths", "--cut")])
        for secret, line in zip(secrets, text.split("\n")):
            told = line.split()
            if told[:1] == ["rejected"] and told[2] == "region":
                self.broken[int(told[3])] = self.broken.get(int(told[3]), 0) + 1
                self.breaking.append(secret)

    def kept(self):
        """How many of the secrets break no region."""
        return len(self.secrets) - len(self.breaking)

    def covers_words(self):
        """Of how many of the secrets that were tried a bound with these regions speaks."""
        counts = f"{self.kept():,} of {len(self.secrets):,}"
        return f"It speaks of runs that break no region: those of {counts} random secrets."

    def sentences(self):
        """What is told of each region that is broken, and how it is learnt again of these secrets too."""
        told = [f"{count:,} of {len(self.secrets):,} random secrets break region {number}: its declaration was learnt "
                "of too few." for number, count in sorted(self.broken.items())]
        return [*told, f"Learn it of these: {self.learn_words()}"] if told else []

    def learn_words(self):
        """The command that learns the regions of the same secrets."""
        named, file = [self.inputs.program, "--from", self.inputs.option("--regions")], self.inputs.public
        words = [*script_words("regions.py"), *named, "--public", file, "--code", "--random", str(MOST_TRUSTED)]
        words += ["--secret", self.inputs.secret] if self.inputs.secret else ["--length", str(self.length)]
        return shlex.join(words) + " >learnt.regions"


def trust_of(asked, inputs, program, length=None):
    """The trust in the regions of a run's inputs, by random secrets that are drawn with its secret or of a length; None
    where it has no region."""
    known = [read(inputs.secret)] if inputs.secret else []
    if not inputs.regions():
        return None
    secrets = drawn(MOST_TRUSTED, len(known[0]) if known else length, known, read(inputs.public))
    return Trust(asked, inputs, program, secrets)
