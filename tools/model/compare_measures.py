#!/usr/bin/env python3
"""compare_measures.py [EXECUTABLE] [--first SEED] [--count N] [--rules] [--cut] [--reports] [--table N]

Measures N random trials (400 without the option) from this seed (1 without it) on by the model, by tables 1 and 2 of
mask rules and a third of them by table 3 too, and checks the model by itself: every measured run must be accepted with
its own cut and number, and every flow and side must be those of networkx (where Python has it) and verified.

With an executable, runs its `measure` and `graph` on each trial and compares status and text with those of the model;
of two certificates the flows may differ, but the one of the program must be verified by the model and by the program's
own `verify`. Each cut that the program measures is given to its `check` with its own number and secret, and to its
`migrate`. With --table all are by this table, and else with --rules some have this option, as with --cut; with
--reports the texts of `report` are compared too, and now and then that of `trial`.

Prints what the trials had, and last how many agree and differ. The files and words of those that differ are kept in a
folder that is named; then the status is 1."""
import collections
import random
import sys
import time

import flows
from answers import Ended, measured_of, run_text
from certificates import verify, without_flows
from comparing import FLAG, Comparison, Counts, difference, family, number_option
from cuts import read_cut
from measure_checks import Guest, narrowing_wrongs, wrongs
from measure_trials import measure_trial, measure_words
from verdicts import answer
from worked_trial import trial_line

THOROUGH_EACH, TRIAL_EACH = 10, 20


def model_answer(measured, command, options):
    """The answer of the model, where it has measured or has a refusal's text."""
    return (4, measured) if isinstance(measured, str) else (0, run_text(measured, command, options))


def graph_wrongs(folder, expected, given):
    """What is wrong with an answer to `graph`."""
    if expected[0] != given[0] or without_flows(expected[1]) != without_flows(given[1]):
        yield f"graph: {given} for {expected}"
    elif given[0] == 0:
        (folder.path / "certificate").write_text(given[1])
        verified = 0, f"verified {given[1].split()[3]}\n"
        for judge, verdict in (("model", verify(given[1].encode())), ("program", folder.run("verify", "certificate"))):
            if verdict != verified:
                yield f"verify by the {judge}: {verdict}"


def check_wrongs(folder, guest, measured, words, text):
    """What is wrong with the check of the cut that the program has measured, and with `migrate` of it."""
    (folder.path / "cut").write_text(text)
    migrated = folder.run("migrate", "cut")
    if migrated != (0, read_cut(text.encode()).migrated().text()):
        yield f"migrate: {migrated}"
    budget = text.split("\n")[2].split()[1]
    given = folder.run("check", *words[:2], "cut", budget, *words[2:])
    expected = answer([guest.judged(measured.cut(), measured.bits)], budget)
    if given != expected or given[0]:
        yield f"check: {given} for {expected}"


def program_wrongs(folder, guest, measured, options, words, has_reports):
    """What is wrong with the answers of the program to a trial."""
    given, cut_option = dict(options), [["--cut", options["--cut"]]] if "--cut" in options else []
    both = without_options(words, ["--cut"])
    expected, answered = model_answer(measured, "measure", given), folder.run("measure", *words)
    if expected != answered:
        yield f"measure{cut_option}: {answered} for {expected}"
    elif expected[0] == 0:
        yield from check_wrongs(folder, guest, measured, without_options(both, ["--rules"]), answered[1])
    yield from graph_wrongs(folder, model_answer(measured, "graph", given), folder.run("graph", *both))
    for flags in ([[], ["--json"]] if has_reports else []):
        expected = model_answer(measured, "report", dict.fromkeys(flags))
        yield from difference(f"report {flags}", folder.run("report", *both, *flags), expected)


def trial_wrongs(folder, seed):
    """What is wrong with the answer of the program to `trial` of a number."""
    chosen = random.Random(f"number {seed}").choice([seed, seed * 104_729 % (1 << 32)])
    return difference(f"trial {chosen}", folder.run("trial", str(chosen)), (0, trial_line(chosen)))


def without_options(words, names):
    """Words without some options, each of which is a word or two."""
    kept, rest = [], list(words)
    while rest:
        word = rest.pop(0)
        if word.partition("=")[0] not in names:
            kept.append(word)
        elif "=" not in word:
            rest.pop(0)
    return kept


def kind_of(refusal):
    """The kind of a refusal, without numbers."""
    words = refusal.split()[2:]
    if words[0] != "region":
        return words[0]
    if words[2] == "undeclared":
        return "region undeclared " + ("register" if words[3][0] == "x" else "byte")
    return f"region {words[2]}"


class Runs(Counts):
    """What the trials had by one table."""

    def __init__(self):
        super().__init__()
        self.cut = collections.Counter()

    def slot_words(self, slot):
        """What is said of a slot."""
        return f"with secret bits at {slot}, in the cut {self.cut[slot]}"

    def add(self, measured):
        """Counts a run that is measured, or the text of its refusal."""
        if isinstance(measured, str):
            self.kinds["refused " + kind_of(measured)] += 1
            return
        cut = measured.cut()
        self.kinds["measured" if measured.bits else "measured with no bit"] += 1
        self.slots.update({family(point[2]) for point in measured.graph.points})
        self.cut.update({family(point[2]) for point in cut.points})
        self.others["with a skipped region"] += bool(cut.skip)
        self.others["with a relay outside the side"] += len(cut.skip) < len(measured.graph.relays)
        self.others["with several masks at a point of the cut"] += any(len(runs) > 1 for runs, _ in cut.points.values())
        self.others["with a pattern in the fold"] += any(not runs for runs, _ in cut.folded().points.values())
        self.others["with fewer bits than are read"] += measured.bits < 8 * measured.secret_length
        self.others["with several points in the cut"] += len(cut.points) > 1


class Narrowing:
    """How much less a table lets flow than the one before it."""

    def __init__(self, table):
        self.table = table
        self.both, self.fewer, self.wide_bits, self.saved, self.most, self.alone = 0, 0, 0, 0, 0, 0

    def add(self, wide, narrow):
        """Counts a run by what each table measures, or the text of its refusal."""
        if isinstance(narrow, str):
            return
        if isinstance(wide, str):
            self.alone += 1
            return
        saved = wide.bits - narrow.bits
        self.both, self.fewer = self.both + 1, self.fewer + (saved > 0)
        self.wide_bits, self.saved, self.most = self.wide_bits + wide.bits, self.saved + saved, max(self.most, saved)

    def show(self):
        """Prints the counts."""
        print(f"of {self.both} runs that both tables measure, table {self.table} gives fewer bits to {self.fewer}: "
              f"{self.saved} of {self.wide_bits} bits less, at most {self.most} of one run; "
              f"it alone measures {self.alone}")


class Measures(Comparison):
    """The comparison of `measure`, `graph`, `report` and `trial`."""

    name, options = "measures", dict.fromkeys(("--rules", "--cut", "--reports"), FLAG) | {"--table": number_option(0)}

    def __init__(self, words):
        super().__init__(words)
        self.runs, self.begin = {table: Runs() for table in (1, 2, 3)}, time.monotonic()
        self.narrowing = {table: Narrowing(table) for table in (2, 3)}

    def options_of(self, seed, options):
        """The options of a trial, perhaps with those that are asked for."""
        dice = random.Random(f"options {seed}")
        if self.words.table:
            options = options + [["--rules", str(self.words.table)]]
        is_any_table = self.words.rules and not self.words.table
        for is_asked, name in ((is_any_table, "--rules"), (self.words.cut, "--cut")):
            if is_asked and dice.random() < 0.6:
                options = options + [[name, dice.choice("1233" if name == "--rules" else "122")]]
        return options

    def measured(self, files, options, table):
        """What the model measures by a table, or the text of its refusal."""
        try:
            return measured_of(files, ["program", "public", "secret"], dict(options) | {"--rules": table})
        except Ended as ended:
            return ended.args[1]

    def model_wrongs(self, seed, guest, results):
        """What is wrong with what the model measures by some tables."""
        for table, measured in results.items():
            self.runs[table].add(measured)
            if not isinstance(measured, str):
                for text in wrongs(guest, measured, seed % THOROUGH_EACH == 0):
                    yield f"table {table}: {text}"
        for table in list(results)[1:]:
            yield from narrowing_wrongs(results[table - 1], results[table], table)
            self.narrowing[table].add(results[table - 1], results[table])

    def try_trial(self, seed):
        """Makes one trial."""
        files, options = measure_trial(seed)
        options = self.options_of(seed, options)
        words, guest = measure_words(seed, options), Guest(files, options)
        asked = int(dict(options).get("--rules", 1))
        tables = (1, 2, 3) if asked == 3 or seed % 3 == 0 else (1, 2)
        results = {table: self.measured(files, options, table) for table in tables}
        texts = list(self.model_wrongs(seed, guest, results))
        if self.words.executable:
            with self.folder(files) as folder:
                texts += program_wrongs(folder, guest, results[asked], dict(options), words, self.words.reports)
                if self.words.reports and seed % TRIAL_EACH == 0:
                    texts += trial_wrongs(folder, seed)
        return files, words, texts

    def make(self):
        """Makes all trials; the status."""
        if not flows.networkx:
            print("flows are not compared with those of networkx, which is not there")
        return super().make()

    def show(self):
        """Prints what the trials had."""
        for table, runs in self.runs.items():
            print(f"by table {table}:")
            runs.show()
        for narrowing in self.narrowing.values():
            narrowing.show()
        taken = 1000 * (time.monotonic() - self.begin) / max(self.words.count, 1)
        print(f"{taken:.0f} milliseconds for each trial")


if __name__ == "__main__":
    sys.exit(Measures.main(__doc__))
