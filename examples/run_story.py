"""Runs the commands of a story as they stand in its text, in a copy of its folder.

Call: run_story.py [--update] COMPILER STORY, where COMPILER is gcc or clang and STORY a folder beside this file.

A command is a line of README.md that begins with four spaces, a dollar sign and a space; the indented lines below it
are what it prints. What `flowcheck` says on standard error, as of secrets that are rejected, is left out. Each command
must end with status 0. With gcc all that is printed must be as in the text; with clang, whose programs have other
addresses, the last line of the last command must be. `--update` writes what is printed into the text. FLOWCHECK is the
program, as a command; without it the one that is built or installed is taken, else the model."""
import argparse
import os
import shlex
import shutil
import stat
import subprocess
import sys
import tempfile

HERE = os.path.dirname(os.path.abspath(__file__))
TOP = os.path.dirname(HERE)
sys.path.insert(0, os.path.join(TOP, "tools", "explain"))

from built_program import program_words

MARK = "    $ "
COPIED = ("examples", "tools")


def program():
    """The command of the program, with whole paths."""
    model = "python3 " + shlex.quote(os.path.join(TOP, "tools", "model", "flowcheck.py"))
    words = program_words() or shlex.split(model)
    return [os.path.abspath(word) if os.path.exists(word) else word for word in words]


def steps_of(lines):
    """The commands of a text, as (number of the line, command, lines that it prints)."""
    steps = []
    for number, line in enumerate(lines):
        if line.startswith(MARK):
            steps.append((number, line[len(MARK) :], []))
        elif steps and line.startswith("    ") and number == steps[-1][0] + len(steps[-1][2]) + 1:
            steps[-1][2].append(line[4:])
    return steps


def run(command, folder, environment):
    """What a command prints, which must end with status 0."""
    done = subprocess.run(
        ["bash", "-c", command], cwd=folder, env=environment, check=False, text=True,
        stdout=subprocess.PIPE, stderr=subprocess.STDOUT,
    )
    lines = [line.rstrip() for line in done.stdout.rstrip("\n").split("\n")] if done.stdout else []
    if done.returncode:
        raise SystemExit(f"{command}\n{done.stdout}status {done.returncode}")
    return lines


def copy(folder, compiler):
    """Copies the scripts and the stories, and makes `flowcheck` the program. The environment for the commands."""
    for name in COPIED:
        made = ("*.elf", "*.bound", "*.cut", "*.report", "*.html", "*.regions", "secrets")
        ignored = shutil.ignore_patterns("__pycache__", *made)
        shutil.copytree(os.path.join(TOP, name), os.path.join(folder, name), ignore=ignored)
    command = os.path.join(folder, "bin", "flowcheck")
    os.mkdir(os.path.dirname(command))
    with open(command, "w", encoding="utf-8") as file:
        file.write(f'#!/bin/sh\nexec {shlex.join(program())} "$@" 2>/dev/null\n')
    os.chmod(command, os.stat(command).st_mode | stat.S_IXUSR)
    path = os.path.dirname(command) + os.pathsep + os.environ["PATH"]
    return os.environ | {"PATH": path, "FLOWCHECK": command, "COMPILER": compiler}


def arguments():
    """The words of the command line."""
    parser = argparse.ArgumentParser(description=__doc__, formatter_class=argparse.RawDescriptionHelpFormatter)
    parser.add_argument("compiler", metavar="COMPILER", choices=("gcc", "clang"))
    parser.add_argument("story", metavar="STORY")
    parser.add_argument("--update", action="store_true")
    words = parser.parse_args()
    if not os.path.exists(os.path.join(HERE, words.story, "README.md")):
        parser.error(f"there is no story {words.story}")
    return words


def main():
    """Runs the story."""
    words = arguments()
    compiler, story = words.compiler, words.story
    name = os.path.join(HERE, story, "README.md")
    with open(name, encoding="utf-8") as file:
        lines = file.read().split("\n")
    steps, printed, faults = steps_of(lines), [], []
    with tempfile.TemporaryDirectory(prefix="story-") as folder:
        environment = copy(folder, compiler)
        for number, command, expected in steps:
            printed.append(run(command, os.path.join(folder, "examples", story), environment))
            is_last = number == steps[-1][0]
            is_same = printed[-1] == expected
            if compiler != "gcc":
                is_same = printed[-1][-1:] == expected[-1:] if is_last else bool(printed[-1]) == bool(expected)
            if not is_same:
                faults.append("\n".join([f"line {number + 1}: {command}", *(f"    {line}" for line in printed[-1])]))
    if words.update:
        for (number, _, expected), text in reversed(list(zip(steps, printed))):
            lines[number + 1 : number + 1 + len(expected)] = ["    " + line if line else "" for line in text]
        with open(name, "w", encoding="utf-8") as file:
            file.write("\n".join(lines))
        return 0
    print("\n".join(faults) or f"{story} with {compiler}: {len(steps)} commands, all as in the text")
    return 1 if faults else 0


if __name__ == "__main__":
    sys.exit(main())
