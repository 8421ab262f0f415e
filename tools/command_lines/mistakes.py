#!/usr/bin/env python3
"""Runs an executable over a table of mistakes, and compares its status, its text and what it says on standard error;
and runs the example that the help of each command has, which must end with status 0. With --scripts it runs the
scripts of tools/ over a table of their own, with the executable as FLOWCHECK: the first word is the script, usage lines
are left out of what is said, and nothing may end with a traceback.

Each mistake of the table stands in a block of its own, with a blank line behind it:

    mistake: what somebody did
    files: NAME HOW, one line for each file beside those of examples/bit
    words: the words, as a shell has them
    to: where standard output goes; without this line it is read
    status: the status
    put: the first line of standard output; without this line there is none
    told: what stands on standard error, from the next line on, each line with `| ` before it

HOW is `text TEXT` with \\n for a line feed, `zeros N`, `code WORD..` for a program file of these words, `edited NAME
OFFSET BYTES..` for a file of which the bytes at an offset are others, `first NAME N` for its first bytes, `doubled
NAME` for a program file whose program header stands twice, `joined NAME NAME` or `folder`."""
import argparse
import os
import re
import shlex
import shutil
import struct
import subprocess
import sys
import tempfile

from compare import OPTIONS

HERE = os.path.dirname(os.path.abspath(__file__))
TOP = os.path.join(HERE, "..", "..")
TABLE, SCRIPTS = (os.path.join(HERE, name) for name in ("mistakes.txt", "script_mistakes.txt"))
USAGE = re.compile(r"usage: .*?\n(?=\S+\.py: error)", re.DOTALL)
FILES = os.path.join(TOP, "examples", "bit")


class Mistake:
    """A block of the table."""

    def __init__(self, block):
        self.title, self.files, self.words, self.to, self.status, self.put, self.told = "", [], "", None, 0, None, ""
        for line in block.split("\n"):
            key, _, value = line.partition(": ")
            if line.startswith("| ") or line == "|":
                self.told += line[2:] + "\n"
            elif key == "mistake":
                self.title = value
            elif key == "files":
                self.files.append(value)
            elif key in ("words", "to", "status", "put"):
                setattr(self, key, value)
            elif line not in ("told:", "words:"):
                raise ValueError("a line of no form: " + line)
        self.status = int(self.status)

    def text(self):
        """The block."""
        lines = ["mistake: " + self.title] + ["files: " + file for file in self.files]
        lines += [("words: " + self.words).rstrip()] + (["to: " + self.to] if self.to else [])
        lines += ["status: %d" % self.status] + (["put: " + self.put] if self.put is not None else []) + ["told:"]
        return "\n".join(lines + [("| " + line).rstrip() for line in self.told.splitlines()]) + "\n"


def program_file(code):
    """A program file of a code at 0x00010000."""
    head = struct.pack("<16sHHIIIIIHHHHHH", b"\x7fELF\x01\x01\x01", 2, 243, 1, 0x10000, 52, 0, 0, 52, 32, 1, 0, 0, 0)
    return head + struct.pack("<8I", 1, 84, 0x10000, 0x10000, len(code), len(code), 7, 1) + code


def doubled(file):
    """A program file of one program header, with that header twice."""
    file = file[:44] + b"\x02" + file[45:84] + file[52:84] + file[84:]
    for at in (56, 88):
        file = file[:at] + struct.pack("<I", struct.unpack_from("<I", file, at)[0] + 32) + file[at + 4 :]
    return file


def made(how, read):
    """The bytes of a file that is made so; `read` gives those of another."""
    kind, _, rest = how.partition(" ")
    words = rest.split()
    if kind == "text":
        return rest.replace("\\n", "\n").replace("\\r", "\r").encode()
    if kind == "zeros":
        return bytes(int(rest))
    if kind == "code":
        return program_file(b"".join(struct.pack("<I", int(word, 16)) for word in words))
    if kind == "edited":
        file, at, new = read(words[0]), int(words[1]), bytes.fromhex("".join(words[2:]))
        return file[:at] + new + file[at + len(new) :]
    if kind == "first":
        return read(words[0])[: int(words[1])]
    if kind == "doubled":
        return doubled(read(words[0]))
    if kind == "joined":
        return read(words[0]) + read(words[1])
    raise ValueError("no way to make a file: " + how)


def lay(files, folder):
    """Lays the files of examples/bit and those of a mistake into a folder."""
    shutil.copytree(FILES, folder, dirs_exist_ok=True)

    def read(name):
        with open(os.path.join(folder, name), "rb") as file:
            return file.read()

    for line in files:
        name, _, how = line.partition(" ")
        if how == "folder":
            os.mkdir(os.path.join(folder, name))
            continue
        content = made(how, read)
        with open(os.path.join(folder, name), "wb") as file:
            file.write(content)


def words_of(command, mistake, is_script):
    """The words of a call, and what the environment has beside."""
    words = shlex.split(mistake.words)
    if not is_script:
        return command + words, {}
    return [sys.executable, os.path.join(TOP, "tools", words[0]), *words[1:]], {"FLOWCHECK": shlex.join(command)}


def run(command, mistake, is_script=False):
    """The status, the first line of standard output, None where there is none, and what stands on standard error."""
    words, added = words_of(command, mistake, is_script)
    with tempfile.TemporaryDirectory() as folder:
        lay(mistake.files, folder)
        out = open(mistake.to, "wb") if mistake.to else subprocess.PIPE
        done = subprocess.run(words, cwd=folder, env=os.environ | added, stdout=out, stderr=subprocess.PIPE)
        if mistake.to:
            out.close()
    put, told = ((text or b"").decode(errors="replace") for text in (done.stdout, done.stderr))
    if is_script:
        told = re.sub(r"[^\s:]*/tools/", "tools/", USAGE.sub("", told))
    return done.returncode, put.split("\n")[0].rstrip() if put else None, told


def judged(command, mistake, is_script):
    """What differs of a mistake, or None."""
    seen = run(command, mistake, is_script)
    wanted = mistake.status, mistake.put, mistake.told
    if seen == wanted:
        return None
    return "%s: %s\n  seen   %r\n  wanted %r" % (mistake.title, mistake.words, seen, wanted)


def broken_examples(command):
    """What goes wrong of the example that the help of each command has."""
    for name in OPTIONS:
        shown = subprocess.run(command + ["help", name], stdout=subprocess.PIPE, universal_newlines=True).stdout
        found = re.search(r"\nExample, in (.*):\n  flowcheck (.*)\n", shown)
        if not found:
            yield name + ": its help has no example"
            continue
        folder = TOP if found[1] == "any folder" else os.path.join(TOP, found[1])
        run = subprocess.run(command + found[2].split(), cwd=folder, stdout=subprocess.DEVNULL, stderr=subprocess.PIPE)
        if run.returncode or not run.stderr.startswith(b"note: ") and run.stderr:
            yield "%s: its example ends with status %d" % (name, run.returncode)


def read_table(name):
    """The head of a table, which says what it is, and its mistakes."""
    with open(name, encoding="utf-8") as file:
        head, *blocks = file.read().rstrip("\n").split("\n\n")
    return head, [Mistake(block) for block in blocks]


def write_table(name, command, head, mistakes, is_script):
    """Writes a table anew, with what the executable or the scripts answer."""
    for mistake in mistakes:
        mistake.status, mistake.put, mistake.told = run(command, mistake, is_script)
    with open(name, "w", encoding="utf-8") as file:
        file.write("\n".join([head + "\n"] + [mistake.text() for mistake in mistakes]))


def main():
    """Runs the table; the status, 1 where something is answered otherwise."""
    parser = argparse.ArgumentParser(description=__doc__, formatter_class=argparse.RawDescriptionHelpFormatter)
    parser.add_argument("--write", action="store_true", help="write what is answered into the table, to be read")
    parser.add_argument("--scripts", action="store_true", help="run the scripts, with the executable as FLOWCHECK")
    parser.add_argument("command", nargs="+", help="the executable, perhaps with words before those of a mistake")
    words = parser.parse_args()
    name, *before = words.command
    command = [os.path.abspath(name) if os.sep in name else name, *before]
    table = SCRIPTS if words.scripts else TABLE
    head, mistakes = read_table(table)
    if words.write:
        write_table(table, command, head, mistakes, words.scripts)
        return 0
    failed = [line for line in (judged(command, mistake, words.scripts) for mistake in mistakes) if line]
    failed += [f"{one.title}: the table has a traceback" for one in mistakes if "Traceback" in one.told]
    failed += [] if words.scripts else broken_examples(command)
    for line in failed:
        print(line)
    tried = len(mistakes) + (0 if words.scripts else len(OPTIONS))
    print("%d passed, %d failed" % (tried - len(failed), len(failed)))
    return 1 if failed else 0


if __name__ == "__main__":
    sys.exit(main())
