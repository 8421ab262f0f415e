"""What the scripts that a user calls have in common: no traceback, whatever the words, the files or the output are."""
import contextlib
import os
import signal
import subprocess
import sys
import tempfile
import textwrap

from built_program import program_words
from elf_symbols import ProgramFile
from refusals import program_fault
from run_facts import Unusable, read

WIDTH = 115


class OutOfTime(Exception):
    """The seconds that something may take are over."""


@contextlib.contextmanager
def within(seconds):
    """Lets work go on for so many seconds, and ends it by OutOfTime. It is for the main thread, and not nested."""

    def ring(*_):
        raise OutOfTime

    before = signal.signal(signal.SIGALRM, ring)
    signal.setitimer(signal.ITIMER_REAL, max(seconds, 0.01))
    try:
        yield
    finally:
        signal.setitimer(signal.ITIMER_REAL, 0)
        signal.signal(signal.SIGALRM, before)


def stop_at_term():
    """Lets TERM end the work as Ctrl-C does."""
    def ring(*_):
        raise KeyboardInterrupt

    signal.signal(signal.SIGTERM, ring)


def program_of(name):
    """The program file of a name."""
    file = read(name)
    fault = program_fault(file)
    if fault:
        raise Unusable(f"{name}: refused 3 program {fault}{explained(name)}")
    return ProgramFile(file)


def explained(name):
    """What the built program says of a program file that it refuses, on lines of its own."""
    words = program_words()
    if not words:
        return ""
    done = subprocess.run([*words, "list", name], stdout=subprocess.DEVNULL, stderr=subprocess.PIPE, check=False)
    lines = done.stderr.decode("utf-8", "replace").split("\n")[1:]
    return "".join("\n" + line for line in lines if line)


def look_at_place(name):
    """Looks whether a file can be written, before the work begins whose outcome it takes."""
    is_new = not os.path.exists(name)
    with open(name, "a", encoding="utf-8"):
        pass
    if is_new:
        os.unlink(name)


def write_text(name, text):
    """Writes a text into a file; where that fails the file is named."""
    try:
        with open(name, "w", encoding="utf-8", errors="backslashreplace") as out:
            out.write(text)
    except OSError as fault:
        raise Unusable(f"{name}: {fault.strerror}; it is not written") from None


@contextlib.contextmanager
def text_file(text, suffix=""):
    """The name of a file that has a text, for a while."""
    with tempfile.NamedTemporaryFile("w", suffix=suffix) as file:
        file.write(text)
        file.flush()
        yield file.name


def counted(number, word):
    """A number with its word: 1 byte, 2 bytes."""
    return f"{number:,} {word}{'' if number == 1 else 's'}"


def wrapped(lines):
    """Lines as a text; sentences are broken where they are long, and what is indented stays as it is."""
    return "\n".join(line if line.startswith(" ") else
                     textwrap.fill(line, WIDTH, break_long_words=False, break_on_hyphens=False) for line in lines)


class Progress:
    """A line on standard error that says how far a script has come; it is on a terminal alone."""

    def __init__(self):
        self.is_shown = sys.stderr.isatty()

    def show(self, text):
        """Shows a text in the place of the one before it; an empty one takes the line away."""
        if self.is_shown:
            print(f"\r\033[K{text}", end="", file=sys.stderr, flush=True)


def finish(main, unusable=3):
    """Ends the process with the status that `main` gives, with `unusable` and a line where a file cannot be used."""
    sys.stdout.reconfigure(errors="backslashreplace")
    try:
        status = main()
        sys.stdout.flush()
    except Unusable as fault:
        status = told(str(fault), unusable)
    except OSError as fault:
        is_output = fault.filename is None
        if is_output:
            os.dup2(os.open(os.devnull, os.O_WRONLY), sys.stdout.fileno())
        if isinstance(fault, BrokenPipeError):
            status = 1
        else:
            status = told(f"{'standard output' if is_output else fault.filename}: {fault.strerror}", unusable)
    except KeyboardInterrupt:
        status = told("stopped", 130)
    sys.exit(status)


def told(text, status):
    """Says something on standard error; the status."""
    print(text, file=sys.stderr)
    return status
