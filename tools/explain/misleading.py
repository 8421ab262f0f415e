"""What is right and may mislead: sentences about what a run read, about its number, and about a cut that is another
program's."""
import hashlib
import re

from document import Section, Words
from guest import shown
from linting import Lint
from running import reads_of
from sampling import trust_of
from tool import counted

TITLE, MOST_NAMED, HASH = "What may mislead", 4, re.compile(rb"SHA-256 ([0-9a-f]{64})")
ZERO = (
    "The number is 0: in this run nothing of the secret reaches the output. If the guest is to use its secret, look "
    "whether it reads it, and whether the compiler left out what it does with it."
)


def program_hash(file):
    """The SHA-256 of a program file."""
    return hashlib.sha256(file).hexdigest()


def of_reads(taken, length, name):
    """What is told of how much of a secret a run read."""
    if not length:
        return [f"The secret {name} has no byte."]
    if not taken:
        return [f"The guest read 0 of {counted(length, 'byte')} of the secret {name}: the number says nothing of it. "
                "It reads the secret from descriptor 3, with read_secret of flowcheck.h."]
    if taken < length:
        return [f"The guest read {taken:,} of {counted(length, 'byte')} of the secret {name}: the rest counts nowhere."]
    return []


def of_number(bits):
    """What is told of a number that was measured."""
    return [ZERO] if bits == 0 else []


def of_cut(program, cut, regions):
    """What is told of a cut: points that are no places of the program, and skips without a region."""
    findings = Lint(program, cut, regions)
    told = [f"skip {number}: the cut skips a region that the region file has not." for number in findings.lone_skips]
    if findings.strange:
        told.append(f"The cut: {findings.strange_words()}.")
    return told


def of_passed(cut, passed, runs):
    """What is told of the points of a cut that no run passed."""
    never = [f"{point[0]} {shown(point[1])} {point[2]}" for point in cut.points if point not in passed]
    if not never:
        return []
    more = f" and {len(never) - MOST_NAMED} more" if len(never) > MOST_NAMED else ""
    by = "This run" if runs == 1 else f"None of these {runs} runs"
    of_all = f"{len(never)} of the cut's {counted(len(cut.points), 'point')}"
    verb = "did not pass" if runs == 1 else "passed"
    return [f"{by} {verb} {of_all}: {', '.join(never[:MOST_NAMED])}{more}."]


def of_run(run, cut, name):
    """What is told of a whole run on a secret, which is compared with a cut."""
    if run is None or run.ending[0] != "exited":
        return []
    passed = {visit[:3] for turn in run.turns for visit in turn.visits}
    return of_reads(*reads_of(run.guest)[1], name) + of_passed(cut, passed, 1)


def of_trust(asked, inputs, program):
    """What is told of the regions of a run's inputs, by random secrets."""
    trust = trust_of(asked, inputs, program)
    return trust.sentences() if trust else []


def section_of(notes):
    """The notes as a section, or None."""
    return Section(TITLE, *[Words(note, "warn") for note in notes]) if notes else None


def program_section(name, file):
    """The program by its hash."""
    return Section("The program", Words(f"{name}, SHA-256 {program_hash(file)}", "dim"))
