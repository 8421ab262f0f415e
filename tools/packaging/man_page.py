"""The man page, in roff with the man macros: what the help says of each command, and a few words about all of them."""
import re

DESCRIPTION = (
    "It runs one guest, a free-standing RV32IM ELF file, on a public input and a secret. It says how many bits of the "
    "secret the output of the run can have given away, and at which places of the program they pass: a cut. With a cut "
    "it judges other secrets, or bounds the outputs of every secret whose run ends and breaks no region.",
    "Of any secrets that \\fBcheck\\fR accepts for one program, public input, region file, cut, budget k and limit of "
    "turns, at most 2^k different outputs arise, bytes and exit status together. Where \\fBbound\\fR answers for no "
    "regions and no path that stops, its number holds of every secret of the cut's length. A number of \\fBmeasure\\fR "
    "is one about one run. Nothing is said of rejected secrets, of time, memory or termination as channels, or of how "
    "hard a secret is to guess.",
)
ANSWERS = (
    "An answer stands on standard output, and what it means, where it is not the plain one, on standard error. Options "
    "stand anywhere after the command; \\fB\\-\\-turns=N\\fR is the same as \\fB\\-\\-turns N\\fR. A name of a file "
    "that begins with a dash is written with ./ before it."
)
# The one status that the help has not: it comes before there is a command.
NO_WORDS = 9, "the words could not be had from the system, or one is not UTF-8"
FILES = (
    ("docs/GUIDE.md", "how to write a guest and a cut, and what each line of an answer means"),
    ("examples", "guests, and stories about them; examples/guests has the header and the makefile for guests in C"),
    ("tools", "scripts: explain.py, regions.py, enclose.py, bound.py, lint.py, run.py and sweep.py"),
)
SEE_ALSO = "gcc(1), qemu\\-user(1), parallel(1)"


def plain(text):
    """A text in which nothing is a request or an escape."""
    text = text.replace("\\", "\\e").replace("-", "\\-").replace("'", "\\(aq").replace("^", "\\(ha")
    return re.sub(r"(?m)^\.", r"\\&.", text)


def sentence(text):
    """A text as a sentence."""
    return plain(text[0].upper() + text[1:] + ("" if text.endswith(("?", ".")) else "."))


def form_line(command):
    """The form of a command: what is typed as it is in bold, and what stands for something in italics."""
    words = [rf"\fB{plain(f'flowcheck {command.name}')}\fR"]
    words += [rf"\fI{word.name}\fR" + ("..." if word.is_several else "") for word in command.words]
    for option in command.options:
        value = rf"\ \fI{option.value}\fR" if option.value else ""
        words.append(rf"[\fB{plain('--' + option.name)}\fR{value}]")
    return " ".join(words)


def command_lines(command):
    """The lines about a command."""
    lines = [f".SS {plain(command.name)}", form_line(command), ".PP", sentence(command.about)]
    for word in command.words:
        lines += [".TP", rf"\fI{word.name}\fR" + ("..." if word.is_several else ""), sentence(word.told)]
    for option in command.options:
        value = rf" \fI{option.value}\fR" if option.value else ""
        lines += [".TP", rf"\fB{plain('--' + option.name)}\fR{value}", sentence(option.told)]
    return lines


def meanings_of(commands, status):
    """What a status means: its meanings, each with the commands that have it where they differ."""
    told = {}
    for command in commands:
        for number, meaning in command.statuses:
            if number == status:
                told.setdefault(meaning, []).append(command.name)
    if len(told) == 1:
        return sentence(next(iter(told)))
    return sentence("; ".join(f"of {', '.join(names)}: {meaning}" for meaning, names in told.items()))


def status_lines(commands):
    """The lines about the statuses."""
    numbers = sorted({number for command in commands for number, _ in command.statuses})
    told = {number: meanings_of(commands, number) for number in numbers}
    told.setdefault(NO_WORDS[0], sentence(NO_WORDS[1]))
    return [line for number, meaning in told.items() for line in (".TP", rf"\fB{number}\fR", meaning)]


def example_lines(commands):
    """The lines with an example of each command, those of one folder together."""
    lines, folders = [], {}
    for command in commands:
        folders.setdefault(command.folder, []).extend(command.examples)
    for folder, examples in folders.items():
        lines += [".PP", f"In {plain(folder)}:", ".PP", ".in +4n", ".EX", *map(plain, examples), ".EE", ".in"]
    return lines


def file_lines():
    """The lines about what is installed beside the program."""
    lines = ["Where the program is installed as bin/flowcheck, these stand in share/flowcheck:"]
    for name, told in FILES:
        lines += [".TP", rf"\fI{plain(name)}\fR", sentence(told)]
    return lines


def man_page(table, date):
    """The page of a table, with a date or none."""
    lines = [
        f'.TH FLOWCHECK 1 "{plain(date)}" "{plain(table.version)}" "User Commands"',
        ".SH NAME", rf"flowcheck \- {plain(table.about[0].lower() + table.about[1:].rstrip('?'))}",
        ".SH SYNOPSIS", r".B flowcheck", r"\fICOMMAND\fR \fIWORD\fR... [\fIOPTION\fR]...", ".br", ".B flowcheck help",
        r"[\fICOMMAND\fR]", ".br", r".B flowcheck \-\-version",
        ".SH DESCRIPTION", DESCRIPTION[0].replace("'", r"\(aq"), ".PP",
        DESCRIPTION[1].replace("'", r"\(aq").replace("^", r"\(ha"), ".PP", ANSWERS,
        ".SH COMMANDS", *(line for command in table.commands for line in command_lines(command)),
        ".SH EXIT STATUS", *status_lines(table.commands),
        ".SH EXAMPLES", *example_lines(table.commands)[1:],
        ".SH FILES", *file_lines(),
        ".SH SEE ALSO", SEE_ALSO,
    ]
    return "\n".join(lines) + "\n"
