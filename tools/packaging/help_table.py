"""The table of the commands, as the help of the built program prints it."""
import dataclasses
import re
import subprocess

from tool import Unusable

SIZED = re.compile(r"at most \d+ (?:bytes|MiB)")
CHOICE = re.compile(r"\b(\d) or (\d)\b")


@dataclasses.dataclass(frozen=True)
class Word:
    """A word of a command: its name, what is said of it, and whether several may stand there."""

    name: str
    told: str
    is_several: bool

    def is_file(self):
        """Whether it names a file: a size is said of files alone."""
        return bool(SIZED.search(self.told))


@dataclasses.dataclass(frozen=True)
class Option:
    """An option: its name without dashes, the name of its value or nothing, and what is said of it."""

    name: str
    value: str
    told: str

    def is_file(self):
        """Whether its value names a file."""
        return bool(self.value and SIZED.search(self.told))

    def choices(self):
        """The values that there are, where they are two digits; else none."""
        found = CHOICE.search(self.told)
        return list(found.groups()) if self.value and found else []


@dataclasses.dataclass(frozen=True)
class Command:
    """A command: what it does, its form, its words and options, what its statuses mean, and examples in a folder."""

    name: str
    about: str
    form: str
    words: tuple
    options: tuple
    statuses: tuple
    folder: str
    examples: tuple


@dataclasses.dataclass(frozen=True)
class Table:
    """The version, what the program is about, and its commands."""

    version: str
    kit: str
    about: str
    commands: tuple


def answer(program, *words):
    """What the program prints for words that ask for a text."""
    try:
        done = subprocess.run([*program, *words], capture_output=True, text=True, check=False)
    except OSError as fault:
        raise Unusable(f"{program[0]}: {fault.strerror}") from fault
    if done.returncode:
        raise Unusable(f"{' '.join([*program, *words])} ends with status {done.returncode}")
    return done.stdout


def sections_of(text):
    """The first line of a help, its form, and the lines of each section by its title."""
    lines = text.rstrip("\n").split("\n")
    sections, title, form = {}, None, ""
    for line in lines[1:]:
        if line.startswith("Usage: "):
            form = line.removeprefix("Usage: ")
        elif re.fullmatch(r"[A-Z][\w ,/]*:", line):
            title = line[:-1]
        elif line.startswith("  ") and title:
            sections.setdefault(title, []).append(line.strip())
    return lines[0], form, sections


def pair_of(line):
    """What stands before the first two blanks of a line, and what stands behind them."""
    first, _, rest = line.partition("  ")
    return first, rest.strip()


def word_of(line):
    """A word, of its line."""
    name, told = pair_of(line)
    return Word(re.sub(r"[<>.]", "", name), told, name.endswith("..."))


def option_of(line):
    """An option, of its line."""
    name, told = pair_of(line)
    name, _, value = name.removeprefix("--").partition(" ")
    return Option(name, value.strip("<>"), told)


def command_of(program, name):
    """The command of this name."""
    about, form, sections = sections_of(answer(program, "help", name))
    title = next((title for title in sections if title.startswith("Example")), None)
    if not form.startswith(f"flowcheck {name}") or title is None or "Status" not in sections:
        raise Unusable(f"flowcheck help {name} has no form, no statuses or no example")
    statuses = tuple((int(number), told) for number, told in map(pair_of, sections["Status"]))
    return Command(
        name, about, form, tuple(map(word_of, sections.get("Arguments", []))),
        tuple(map(option_of, sections.get("Options", []))), statuses,
        title.partition(", in ")[2], tuple(sections[title]),
    )


def table_of(program):
    """The table that the help of a program has; the program is the words that call it."""
    version, _, kit = answer(program, "--version").partition("\n")
    about, _, sections = sections_of(answer(program, "--help").split("\n\nflowcheck help ")[0])
    if not version.startswith("flowcheck ") or "Commands" not in sections:
        raise Unusable("the program prints no version, or no list of commands")
    names = [pair_of(line)[0] for line in sections["Commands"]]
    return Table(version, kit.strip(), about, tuple(command_of(program, name) for name in names))
