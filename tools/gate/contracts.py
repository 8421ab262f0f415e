#!/usr/bin/env python3
"""contracts.py [REVISION] [--against OTHER]

Prints the contract of each public function of the crates, clause by clause: of the files as they are, or of a revision.
With `--against OTHER` it prints instead what differs from that revision: functions that went, that came, and clauses
that went or came of the others. White space and the order of functions make no difference. A function is known by its
crate and its name; methods by their type's."""
import argparse
import pathlib
import re
import subprocess
import sys

FUNCTION = re.compile(r"^(\s*)pub (?:const )?fn (\w+)")
IMPL = re.compile(r"^(impl|pub trait|impl<[^{]*>)\b(.*)")


def files_of(revision):
    """The source files of the crates, tests left out: pairs of a path and its text."""
    if revision is None:
        for path in sorted(pathlib.Path("crates").glob("*/src/**/*.rt")):
            yield str(path), path.read_text()
        return
    names = subprocess.run(["git", "ls-tree", "-r", "--name-only", revision, "crates"], capture_output=True, text=True,
                           check=True).stdout.split()
    for name in names:
        if re.fullmatch(r"crates/[^/]+/src/.*\.rt", name):
            yield name, subprocess.run(["git", "show", f"{revision}:{name}"], capture_output=True, text=True,
                                       check=True).stdout


def head_of(lines, start):
    """The lines of a function's head, from its first to the one that opens its body."""
    depth, head = 0, []
    for line in lines[start:]:
        bare = re.sub(r'"(?:[^"\\]|\\.)*"', '""', line)
        if bare.strip() in ("{", "{}") and depth == 0:
            return head
        head.append(line.strip())
        depth += bare.count("{") - bare.count("}")
        if bare.rstrip().endswith("{") and depth == 1 and not re.match(r"\s*(requires|ensures|ghost)\b", bare):
            return [*head[:-1], head[-1].rstrip("{ ")]
        if bare.rstrip().endswith(";") and depth == 0:
            return head
    return head


def clauses_of(head):
    """The signature and the clauses of a head, each in one line."""
    text = re.sub(r"\s+", " ", " ".join(head))
    parts = re.split(r" (?=(?:requires|ensures|ghost)\b(?: \w+)? \{)", text)
    return [part.strip() for part in parts]


def contracts(revision):
    """The clauses of each public function, by crate, type and name."""
    found = {}
    for name, text in files_of(revision):
        if "/tests" in name or name.endswith("_tests.rt"):
            continue
        lines, owner = text.split("\n"), ""
        for number, line in enumerate(lines):
            block = IMPL.match(line)
            if block:
                owner = re.sub(r"\s*(where.*)?\{.*", "", block.group(2)).strip()
            if line == "}":
                owner = ""
            function = FUNCTION.match(line)
            inside = re.match(r"^    fn (\w+)", line) if owner and line.startswith("    fn") else None
            if function or (inside and text.count("pub trait")):
                called = function.group(2) if function else inside.group(1)
                key = name.split("/")[1], owner if line.startswith(" ") else "", called
                found[key] = clauses_of(head_of(lines, number))
    return found


def title(key):
    """The crate, the type if there is one, and the name of a function."""
    crate, owner, name = key
    return f"{crate}: {owner + ' ' if owner else ''}{name}"


def main():
    """Prints the contracts, or what differs."""
    parser = argparse.ArgumentParser(description=__doc__)
    parser.add_argument("revision", nargs="?")
    parser.add_argument("--against")
    words = parser.parse_args()
    now = contracts(words.revision)
    if words.against is None:
        for key in sorted(now):
            print(title(key))
            for clause in now[key]:
                print(f"    {clause}")
        return 0
    before = contracts(words.against)
    for key in sorted(set(before) - set(now)):
        print(f"went: {title(key)}")
    for key in sorted(set(now) - set(before)):
        print(f"came: {title(key)}")
    for key in sorted(set(now) & set(before)):
        went = [clause for clause in before[key] if clause not in now[key]]
        came = [clause for clause in now[key] if clause not in before[key]]
        if went or came:
            print(f"changed: {title(key)}")
            for clause in went:
                print(f"    - {clause}")
            for clause in came:
                print(f"    + {clause}")
    return 0


if __name__ == "__main__":
    sys.exit(main())
