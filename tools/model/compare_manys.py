#!/usr/bin/env python3
"""compare_manys.py [EXECUTABLE] [--first SEED] [--count N]

Measures the runs of N random guests (400 without the option) from this seed (1 without it) on together, each guest on 1
to 4 secrets, by the model. Each run must be accepted by the model of `check` with the one cut and number, the flow and
the side must be those of networkx (where Python has it), and of one secret the cut is that of `measure`. With an
executable, its `measure-all` must answer as the model does, and its `check` must accept each secret with that cut and
number.

Prints what the trials had, and last how many agree and differ. The files and words of those that differ are kept in a
folder that is named; then the status is 1."""
import random
import sys

from answers import Ended, cut_text, many_of, measured_of, read_words
from compare_measures import without_options
from comparing import Comparison, Counts, difference, family
from cuts import read_cut
from measure_checks import second_wrongs
from trials import random_guest, spelled, usual_options
from verdicts import Command
from ways import ways_program


def many_trial(seed):
    """The files of a trial by name, and the words behind `measure-all`."""
    dice = random.Random(f"many {seed}")
    make = ways_program if dice.random() < 0.6 else None
    _, file, (_, public, secrets), regions, limit, _ = random_guest(dice, dice.random() < 0.5, make)
    files, options = usual_options(dice, regions, limit)
    options += [["--rules", dice.choice("122")]] if dice.random() < 0.5 else []
    options += [["--cut", dice.choice("12")]] if dice.random() < 0.3 else []
    files |= {"program": file, "public": public}
    files |= {f"secret{number}": secret for number, secret in enumerate(secrets, 1)}
    named = [name for name in files if name.startswith("secret")]
    return files, ["program", "public", *named, *spelled(dice, options)]


class Together(Counts):
    """What the trials had."""

    def slot_words(self, slot):
        """What is said of a slot."""
        return f"with {slot} in the cut"

    def add(self, many, single):
        """Counts what is measured."""
        self.kinds[f"measured {len(single)} secret{'s' if len(single) > 1 else ''}"] += 1
        self.kinds["with bits"] += bool(many.bits)
        self.kinds["with more bits than each run alone"] += many.bits > max(one.bits for one in single)
        self.kinds["with another cut than the first run"] += many.cut().text() != single[0].cut().text()
        self.kinds["with a skipped region"] += bool(many.skip)
        self.slots.update({family(point[2]) for point in many.cut().points})


def model_wrongs(files, options, plain, many):
    """What is wrong with what the model measures."""
    budget, cut = str(many.bits), many.cut()
    options = {name: value for name, value in options.items() if name in ("--regions", "--turns")}
    flat = [word for option in options.items() for word in option]
    command = Command(files | {"cut": cut.text().encode()}, [*plain[:2], "cut", budget, *plain[2:], *flat])
    for number, judged in enumerate(command.judgements(), 1):
        if judged.word != "accepted":
            yield f"secret {number} is {judged.word} {judged.text}"
    if sum(many.united.capacity(point) for point in cut.points) != many.bits:
        yield "the points of the cut have other capacities"
    yield from second_wrongs(many)


def program_wrongs(folder, words, expected):
    """What is wrong with the answers of the program."""
    given = folder.run("measure-all", *words)
    yield from difference("measure-all", given, expected)
    if given == expected and given[0] == 0:
        (folder.path / "cut").write_text(given[1])
        bits, rest = str(read_cut(given[1].encode()).bits), without_options(words, ["--rules", "--cut"])
        names = [word for word in rest if not word.startswith("secret")]
        secrets = [word for word in rest if word.startswith("secret")]
        status, text = folder.run("check", *names[:2], "cut", bits, *secrets, *names[2:])
        if status:
            yield f"check: {text}"


class Manys(Comparison):
    """The comparison of `measure-all`."""

    name, counted = "manys", Together

    def try_trial(self, seed):
        """Makes one trial."""
        files, words = many_trial(seed)
        _, plain, options = read_words(["measure-all", *words])
        texts = []
        try:
            many = many_of(files, plain, options)
            expected = 0, cut_text(many, options)
            single = [measured_of(files, [*plain[:2], name], options) for name in plain[2:]]
            self.counts.add(many, single)
            texts += model_wrongs(files, options, plain, many)
            if len(single) == 1 and cut_text(single[0], options) != expected[1]:
                texts.append("of one secret the cut is another")
        except Ended as ended:
            expected = ended.args
            self.counts.kinds[f"refused {' '.join(expected[1].split()[2:5:2])}"] += 1
        if self.words.executable:
            with self.folder(files) as folder:
                texts += program_wrongs(folder, words, expected)
        return files, ["measure-all", *words], texts


if __name__ == "__main__":
    sys.exit(Manys.main(__doc__))
