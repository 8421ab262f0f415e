"""Tests of the man page and of the completions that tools/packaging/pages.py makes of the help of the built program.

Call: pages_tests.py [--flowcheck COMMAND]

Each command, word and option of the help must stand on the page, which `man` must show without a warning; bash must
complete commands, options, values and files, and fish too where it is there; zsh must read its file. The program is the
option, or FLOWCHECK, or the built one. What is not there is left out, and named. The status is 1 where something is
wrong, and 2 where there is no program."""
import argparse
import os
import re
import shlex
import shutil
import subprocess
import sys

HERE = os.path.dirname(os.path.abspath(__file__))
sys.path[:0] = [HERE, *(os.path.join(os.path.dirname(HERE), name) for name in ("packaging", "explain", "model"))]

from built_program import program_words
from expecting import Expectations, run_all
from help_table import table_of
from pages import COMPLETIONS, PAGE

# Completes the words behind `flowcheck`, of which the last is begun, and prints a word a line and what else is offered.
ASK_BASH = r"""
. "$1"; shift
compopt() { [ "$*" = "+o default" ] && files=no; }
files=yes
COMP_WORDS=(flowcheck "$@") COMP_CWORD=$#
_flowcheck
printf '%s\n' "${COMPREPLY[@]}"
echo "files $files"
"""
SHELLS = {name: path for path in COMPLETIONS for name in ("bash", "zsh", "fish") if f"/{name}" in path}


class PagesTests(Expectations):
    """The tests."""

    def __init__(self, folder, program):
        super().__init__(folder)
        self.program, self.table = program, table_of(program)
        words = ["--flowcheck", shlex.join(program), "--date", "2026-11-29"]
        status, output, error = self.call("packaging/pages.py", folder, *words)
        self.expect("pages: made", (status, output, error) == (0, "", ""), output + error)

    def ran(self, *words):
        """The status of a command, and what it prints."""
        done = subprocess.run(words, cwd=self.folder, capture_output=True, text=True, check=False)
        return done.returncode, done.stdout, done.stderr

    def test_man_page(self):
        """The page has what the help has, and is shown without a warning."""
        if not shutil.which("man"):
            self.leave_out("man")
            return
        page = self.path(PAGE)
        shown = ["env", "LC_ALL=C.UTF-8", "MANWIDTH=200", "MAN_KEEP_FORMATTING=", "man", "--warnings", "-l", page]
        status, text, error = self.ran(*shown)
        self.expect("man: warnings", (status, error) == (0, ""), error)
        text = re.sub(r"\s+", " ", re.sub(r".\x08", "", text)).replace("\u2010 ", "")
        for command in self.table.commands:
            told = [command.about, *command.examples, *(word.told for word in command.words)]
            told += [f"--{option.name} {option.value}".strip() for option in command.options]
            told += [option.told for option in command.options] + [meaning for _, meaning in command.statuses]
            for part in told:
                is_there = part.lower() in text.lower()
                self.expect(f"man: {command.name}: {part}", is_there, "" if is_there else text[:200])
        for title in ("NAME", "SYNOPSIS", "DESCRIPTION", "COMMANDS", "EXIT STATUS", "EXAMPLES", "FILES", "SEE ALSO"):
            self.expect(f"man: {title}", f" {title} " in text)

    def bash(self, *words):
        """What bash completes, and whether files are offered."""
        status, output, error = self.ran("bash", "--norc", "-c", ASK_BASH, "-", self.path(SHELLS["bash"]), *words)
        self.expect(f"bash: {' '.join(words)}", (status, error) == (0, ""), error)
        *offered, files = output.split("\n")[:-1]
        return sorted(filter(None, offered)), files == "files yes"

    def expect_bash(self, words, offered, files=False):
        """bash must complete words so."""
        said = self.bash(*words)
        self.expect(f"bash: {' '.join(words)}", said == (sorted(offered), files), repr(said))

    def test_bash(self):
        """Commands, options, values and files."""
        names = [command.name for command in self.table.commands]
        self.expect_bash([""], [*names, "help", "--help", "--version"])
        self.expect_bash(["help", ""], names)
        self.expect_bash(["meas"], [name for name in names if name.startswith("meas")])
        for command in self.table.commands:
            self.expect_bash([command.name, "--"], [f"--{option.name}" for option in command.options])
            for place, word in enumerate(command.words):
                self.expect_bash([command.name, *["x"] * place, ""], [], word.is_file())
            is_several = bool(command.words) and command.words[-1].is_several
            self.expect_bash([command.name, *["x"] * (len(command.words) + 3), ""], [], is_several)
            for option in command.options:
                if option.value:
                    for words in ([f"--{option.name}", ""], [f"--{option.name}", "="], [f"--{option.name}", "=", ""]):
                        self.expect_bash([command.name, *words], option.choices(), option.is_file())
        first = self.table.commands[0]
        valued = [option.name for option in first.options if option.value]
        for words in ([f"--{valued[0]}", "5"], [f"--{valued[0]}", "=", "5"]) if valued else ():
            place = [word.is_file() for word in first.words].index(False)
            self.expect_bash([first.name, *words, *["x"] * place, ""], [])

    def test_fish(self):
        """Commands, options and values."""
        if not shutil.which("fish"):
            self.leave_out("fish")
            return
        for words, offered in (
            ("meas", [command.name for command in self.table.commands if command.name.startswith("meas")]),
            ("bound --ru", ["--rules"]), ("bound --rules ", ["1", "2"]), ("check --tu", ["--turns"]),
        ):
            asked = f"source {self.path(SHELLS['fish'])}; complete -C 'flowcheck {words}'"
            status, output, error = self.ran("env", f"HOME={self.folder}", "fish", "--no-config", "-c", asked)
            said = sorted(line.split("\t")[0] for line in output.split("\n")[:-1])
            self.expect(f"fish: {words}", (status, error, said) == (0, "", sorted(offered)), f"{said} {error}")

    def test_zsh(self):
        """zsh reads its file."""
        if not shutil.which("zsh"):
            self.leave_out("zsh")
            return
        status, output, error = self.ran("zsh", "-f", "-n", self.path(SHELLS["zsh"]))
        self.expect("zsh: read", (status, output, error) == (0, "", ""), output + error)

    def test_wrong_words(self):
        """Words that cannot be used are told without a traceback."""
        status, _, error = self.call("packaging/pages.py")
        self.expect("words: none", status == 2 and "required" in error, error)
        for command in ("false", "no-such-program"):
            status, _, error = self.call("packaging/pages.py", self.folder, "--flowcheck", command)
            self.expect(f"words: {command}", status == 3 and command in error, error)


def main():
    """Runs the tests."""
    parser = argparse.ArgumentParser(description=__doc__, formatter_class=argparse.RawDescriptionHelpFormatter)
    parser.add_argument("--flowcheck", metavar="COMMAND")
    words = parser.parse_args()
    program = program_words() if words.flowcheck is None else shlex.split(words.flowcheck)
    if not program:
        parser.error("there is no built program: --flowcheck names one")
    return run_all(PagesTests, program)


if __name__ == "__main__":
    sys.exit(main())
