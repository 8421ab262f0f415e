"""The whole answer to a command line: its status and its text. A file is named by a word; a name may have no file."""
import re

from bounds import Bounds, Task
from certificates import verify
from cuts import read_cut, read_regions
from guest import Image
from learns import NotLearnt, learn, regions_text
from manys import Many
from measures import Measured, Refused
from refusals import cut_fault, is_number, program_fault, regions_fault
from taints import find, taint_answer
from verdicts import MOST_BUDGET, USUAL_TURNS, Command, answer
from worked_trial import trial_line

MOST_TURNS, MOST_SECRETS, MOST_WORD = 20_000_000, 64, 0xFFFFFFFF
MOST_PATHS, USUAL_PATHS = 1 << 20, 1 << 16
FLAGS = {("report", "--json"), ("bound", "--list"), ("bound", "--any-public"), ("bound", "--hold")}
PROGRAM, PUBLIC, SECRET, TEXT, REGIONS = 1 << 24, 1 << 20, 1 << 16, 1 << 26, 1 << 16
NUMBERS = {"--turns": (1, MOST_TURNS), "--rules": (1, 3), "--cut": (1, 2), "--paths": (1, MOST_PATHS)}
OPTIONS = {
    "measure": {"--regions", "--turns", "--rules", "--cut"},
    "measure-all": {"--regions", "--turns", "--rules", "--cut"},
    "graph": {"--regions", "--turns", "--rules"},
    "report": {"--regions", "--turns", "--rules"},
    "check": {"--regions", "--turns"},
    "taint": {"--regions", "--turns", "--rules"},
    "learn": {"--turns"},
    "bound": {"--regions", "--turns", "--rules", "--paths"},
    "verify": set(),
    "migrate": set(),
    "trial": set(),
}
CHECKED = 5, 4 + MOST_SECRETS
PLAIN = {"measure": (3, 3), "graph": (3, 3), "report": (3, 3), "check": CHECKED, "taint": CHECKED, "learn": (4, 4),
         "measure-all": (3, 2 + MOST_SECRETS), "bound": (4, 4)}


class Ended(Exception):
    """A command ends with a status and a text."""


def read_words(words):
    """The command, its plain words and its options; ends as usage where the words are no command line."""
    parsed = parsed_words(words)
    if parsed is None or not are_in_range(*parsed):
        raise Ended(2, "refused 2 usage\n")
    return parsed


def parsed_words(words):
    """The command, its plain words and its options, or None."""
    command, rest, plain, options = words[0] if words else "", list(words[1:]), [], {}
    if command not in OPTIONS:
        return None
    while rest:
        word = rest.pop(0)
        name, equals, value = word.partition("=")
        if not word.startswith("-") and word:
            plain.append(word)
        elif (command, word) in FLAGS and word not in options:
            options[word] = ""
        elif name in OPTIONS[command] and name not in options:
            value = value if equals else rest.pop(0) if rest and not rest[0].startswith("-") else ""
            if not value:
                return None
            options[name] = value
        else:
            return None
    return command, plain, options


def are_in_range(command, plain, options):
    """Whether there are enough plain words, and every number is in its range."""
    least, most = PLAIN.get(command, (1, 1))
    if not least <= len(plain) <= most:
        return False
    numbers = [(options[name], *bounds) for name, bounds in NUMBERS.items() if name in options]
    numbers += [(plain[3], 0, MOST_BUDGET)] if command in ("check", "taint", "bound") else []
    numbers += [(plain[0], 0, MOST_WORD)] if command == "trial" else []
    return all(is_number(*number) for number in numbers)


def printed(name):
    """A name as it is printed."""
    return re.sub(r"[\x00-\x1f\x7f]", lambda byte: f"\\x{ord(byte[0]):02x}", name)


def load(files, loads):
    """Ends where the first load that cannot be made is none, or has too many bytes."""
    for name, limit in loads:
        if name not in files:
            raise Ended(5, f"refused 5 load {printed(name)}\n")
        if len(files[name]) > limit:
            raise Ended(6, f"refused 6 too-large {printed(name)} {limit + 1}\n")


def require(form, fault):
    """Ends where a file has a fault."""
    if fault:
        raise Ended(3, f"refused 3 {form} {fault}\n")


def listed_regions(files, program, public, regions, secrets=(), cut=None):
    """Loads what a command names: program, public input, cut, regions and secrets. Ends where one is not there, or has
    a fault; then the regions, none where no file of them is named."""
    loads = [(program, PROGRAM), (public, PUBLIC)] + [(cut, TEXT)] * (cut is not None)
    loads += [(regions, REGIONS)] * (regions is not None)
    load(files, loads + [(secret, SECRET) for secret in secrets])
    require("program", program_fault(files[program]))
    require("regions", regions and regions_fault(files[regions]))
    require("cut", cut and cut_fault(files[cut]))
    return read_regions(files[regions]) if regions else []


def run_parts(files, plain, options):
    """What the runs of `measure` and the like are made of: image, public input, secrets, regions, table and limit."""
    program, public, *secrets = plain
    listed = listed_regions(files, program, public, options.get("--regions"), secrets)
    table, limit = int(options.get("--rules", 1)), int(options.get("--turns", USUAL_TURNS))
    return Image(files[program]), files[public], [files[secret] for secret in secrets], listed, table, limit


def measured_of(files, plain, options):
    """What `measure`, `graph` and `report` measure; ends where they are refused."""
    image, public, secrets, *rest = run_parts(files, plain, options)
    try:
        return Measured(image, public, secrets[0], *rest)
    except Refused as refusal:
        raise Ended(4, f"refused 4 {refusal}\n") from None


def many_of(files, plain, options):
    """What `measure-all` measures; ends where it is refused."""
    try:
        return Many(*run_parts(files, plain, options))
    except Refused as refusal:
        raise Ended(4, f"refused 4 {refusal}\n") from None


def run_text(measured, command, options):
    """The text of `measure`, `graph` or `report`."""
    if command == "report":
        return measured.json_report() if "--json" in options else measured.report()
    if command == "graph":
        return measured.certificate()
    return cut_text(measured, options)


def cut_text(measured, options):
    """The text of the cut of what is measured."""
    cut = measured.cut()
    return (cut.folded() if options.get("--cut") == "2" else cut).text()


def checked_of(files, words, plain, options):
    """What `check` and `taint` look at."""
    program, public, cut, _, *secrets = plain
    listed_regions(files, program, public, options.get("--regions"), secrets, cut)
    return Command(files, words[1:])


def check_answer(files, words, plain, options):
    """The answer of `check`."""
    command = checked_of(files, words, plain, options)
    return answer(command.judgements(), command.budget)


def findings_of(files, words, plain, options):
    """What `taint` finds of each secret, and its budget."""
    command, table = checked_of(files, words, plain, options), int(options.get("--rules", 1))
    rest = command.regions, command.cut, table, command.budget, command.limit
    return [find(command.image, command.public, secret, *rest) for secret in command.secrets], command.budget


def learn_answer(files, plain, options):
    """The answer of `learn`."""
    program, public, secret, regions = plain
    listed, limit = listed_regions(files, program, public, regions, [secret]), int(options.get("--turns", USUAL_TURNS))
    try:
        return 0, regions_text(learn(Image(files[program]), files[public], files[secret], listed, limit))
    except NotLearnt as fault:
        raise Ended(4, f"refused 4 {fault}\n") from None


def bound_answer(files, plain, options):
    """The answer of `bound`."""
    program, public, cut, budget = plain
    listed = listed_regions(files, program, public, options.get("--regions"), cut=cut)
    numbers = (("--rules", 1), ("--turns", USUAL_TURNS), ("--paths", USUAL_PATHS))
    table, turns, paths = (int(options.get(*number)) for number in numbers)
    limits = int(budget), turns, paths, "--any-public" in options, "--hold" in options
    return Bounds(Task(Image(files[program]), files[public], listed, read_cut(files[cut]), table, *limits)).text(
        "--list" in options)


def migrate_answer(files, name):
    """The answer of `migrate`."""
    load(files, [(name, TEXT)])
    require("cut", cut_fault(files[name]))
    return 0, read_cut(files[name]).migrated().text()


def answer_to(files, words):
    """The status and the text of a command line."""
    try:
        command, plain, options = read_words(words)
        if command == "check":
            return check_answer(files, words, plain, options)
        if command == "taint":
            return taint_answer(*findings_of(files, words, plain, options))
        if command == "measure-all":
            return 0, cut_text(many_of(files, plain, options), options)
        if command == "learn":
            return learn_answer(files, plain, options)
        if command == "bound":
            return bound_answer(files, plain, options)
        if command == "trial":
            return 0, trial_line(int(plain[0]))
        if command == "migrate":
            return migrate_answer(files, *plain)
        if command == "verify":
            load(files, [(plain[0], TEXT)])
            return verify(files[plain[0]])
        return 0, run_text(measured_of(files, plain, options), command, options)
    except Ended as ended:
        return ended.args
