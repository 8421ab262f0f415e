"""The driver of the comparisons of random trials: their words, the folder in which a program runs, what is counted and
printed, the trials that differ, and the status."""
import argparse
import collections
import contextlib
import json
import os
import pathlib
import subprocess
import tempfile

from cuts import slot_order

SECONDS = 300
FLAG = {"action": "store_true"}


def number_option(usual):
    """An option that is a number, with the usual one, for argparse."""
    return {"type": int, "default": usual, "metavar": "N"}


def executable(name):
    """The path of a program, for argparse."""
    if not os.access(name, os.X_OK) or os.path.isdir(name):
        raise argparse.ArgumentTypeError(f"{name} is no program")
    return pathlib.Path(name).resolve()


class Folder:
    """A trial's files in a folder, in which the program runs."""

    def __init__(self, executable, path, files):
        self.executable, self.path = executable, pathlib.Path(path)
        self.write(files)

    def write(self, files):
        """Writes files."""
        for name, data in files.items():
            (self.path / name).write_bytes(data)

    def run(self, *words):
        """The status and the text of the program on these words."""
        try:
            done = subprocess.run([self.executable, *words], cwd=self.path, capture_output=True, timeout=SECONDS)
        except subprocess.TimeoutExpired:
            return None, f"no answer within {SECONDS} seconds"
        return done.returncode, done.stdout.decode(errors="replace")


def difference(name, given, expected):
    """What is wrong with an answer: nothing, or one text."""
    return [f"{name}: {given} for {expected}"] if given != expected else []


def family(slot):
    """A slot; those of registers and of ranges are one each."""
    return slot if slot == "rs" or slot[0] not in "xr" else slot[0] + "N"


def show_counts(counts):
    """Prints what was counted, by name."""
    for name in sorted(counts):
        print(f"{counts[name]:8} {name}")


class Counts:
    """What trials had: of which kind they were, at which slots bits were, and what else."""

    def __init__(self):
        self.kinds, self.slots, self.others = (collections.Counter() for _ in range(3))

    def slot_words(self, slot):
        """What is said of a slot behind its number."""
        return f"with bits at {slot}"

    def show(self):
        """Prints the counts."""
        show_counts(self.kinds)
        for slot in sorted(self.slots, key=lambda slot: slot_order(slot.replace("N", "0"))):
            print(f"{self.slots[slot]:8} {self.slot_words(slot)}")
        show_counts(self.others)


class Comparison:
    """A comparison of random trials. Each kind says what its trials are and what is wrong with one."""

    name, wants_program, options, counted = "", False, {}, Counts
    """The name of its folder, whether it has nothing to do without a program, its options, and what it counts."""

    def __init__(self, words):
        self.words, self.counts, self.tried, self.differing, self.kept = words, self.counted(), 0, 0, None

    def trials(self):
        """The name of each trial, which is its seed, and what else is known of it."""
        return ((seed,) for seed in range(self.words.first, self.words.first + self.words.count))

    def try_trial(self, name, *known):
        """Makes a trial: its files, its words, what is wrong with it, and perhaps answers by name."""
        raise NotImplementedError

    def show(self):
        """Prints what the trials had."""
        self.counts.show()

    @contextlib.contextmanager
    def folder(self, files):
        """A folder with files, in which the program runs."""
        with tempfile.TemporaryDirectory() as path:
            yield Folder(self.words.executable, path, files)

    def given(self, files, *words):
        """The status and the text of the program on these words."""
        with self.folder(files) as folder:
            return folder.run(*words)

    def keep(self, name, files, words, texts, answers=()):
        """Counts a trial that differs, and keeps it in a folder with its files, its words and what is wrong."""
        self.differing += 1
        self.kept = self.kept or pathlib.Path(tempfile.mkdtemp(prefix=f"flowcheck-{self.name}-"))
        place = self.kept / str(name)
        place.mkdir()
        files = Folder(None, place, files)
        (place / "words.json").write_text(json.dumps(words))
        (place / "wrong.txt").write_text("\n".join(texts) + "\n")
        for judge, (status, text) in dict(answers).items():
            (place / f"{judge}.txt").write_text(f"status {status}\n{text}")
        print(f"trial {name} differs: {texts[0][:300]}", flush=True)

    def make(self):
        """Makes all trials, and prints how many agree and differ; the status, 1 where any differs."""
        for name, *known in self.trials():
            self.tried += 1
            files, words, texts, *answers = self.try_trial(name, *known)
            if texts:
                self.keep(name, files, words, texts, *answers)
        self.show()
        if self.kept:
            print(f"the trials that differ are in {self.kept}")
        print(f"{self.tried - self.differing} agree, {self.differing} differ")
        return int(self.differing > 0)

    @classmethod
    def main(cls, text):
        """Reads the words of the command, whose help is a text, and makes the comparison; the status."""
        parser = argparse.ArgumentParser(description=text, formatter_class=argparse.RawDescriptionHelpFormatter)
        parser.add_argument("executable", type=executable, nargs=None if cls.wants_program else "?")
        parser.add_argument("--first", type=int, default=1, metavar="SEED")
        for name, form in ({"--count": number_option(400)} | cls.options).items():
            parser.add_argument(name, **form)
        return cls(parser.parse_args()).make()
