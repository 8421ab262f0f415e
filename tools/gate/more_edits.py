#!/usr/bin/env python3
"""more_edits.py [CRATE...] [--look]

Tries the must-fail edits of tools/gate/edits, which the gate leaves out to be quick: `edits/CRATE/NAME.edit` changes a
line or two of a crate so that something else is meant, and the check of the crate must refuse it. All crates that have
such edits are tried, or those that are named. Each is tried on a copy of the checkout, in which its edits stand where
the gate's own edits stand, so that `rt must-fail` reads them; what was built in the checkout is lent to the copy.

--look proves nothing: it only says which edits no longer apply, since a text of theirs does not stand exactly once in
its file. Status 1: an edit was not refused, or does not apply. Python 3 with the kit's `rt` on the PATH."""
import argparse
import os
import pathlib
import shutil
import subprocess
import sys
import tempfile

TOP = pathlib.Path(__file__).resolve().parents[2]
EDITS = TOP / "tools/gate/edits"


def pairs_of(edit):
    """The file that an edit changes, and its pairs of an old and a new text."""
    file, pairs, old = None, [], None
    for line in edit.read_text().splitlines():
        word, _, rest = line.partition(": ")
        if word == "file":
            file = rest
        elif word == "old":
            old = rest
        elif word == "new":
            pairs.append((old, rest))
    return file, pairs


def lack_of(edit):
    """Why an edit does not apply, or None."""
    file, pairs = pairs_of(edit)
    path = TOP / "crates" / edit.parent.name / str(file)
    if not path.is_file() or not pairs:
        return "it names no file of its crate, or has no texts"
    text = path.read_text()
    for old, new in pairs:
        if text.count(old) != 1:
            return f"its text stands {text.count(old)} times in {file}: {old}"
        text = text.replace(old, new)
    return None


def look(crates):
    """Says which edits of the crates do not apply; whether all do."""
    edits = [edit for crate in crates for edit in sorted((EDITS / crate).glob("*.edit"))]
    lacks = [(edit, lack_of(edit)) for edit in edits]
    for edit, lack in lacks:
        if lack:
            print(f"{edit.relative_to(EDITS)}: {lack}")
    applied = sum(lack is None for _, lack in lacks)
    print(f"{applied} of {len(edits)} edits apply")
    return applied == len(edits)


def copy_to(room, crates):
    """Copies the files that git knows, lends what was built of libraries, and puts the edits of the crates in place."""
    listed = subprocess.run(["git", "ls-files", "-z"], cwd=TOP, check=True, capture_output=True, text=True).stdout
    for name in filter(None, listed.split("\0")):
        if (TOP / name).is_file():
            (room / name).parent.mkdir(parents=True, exist_ok=True)
            shutil.copyfile(TOP / name, room / name)
    subprocess.run(["git", "init", "-q"], cwd=room, check=True)
    for built in TOP.glob("crates/*/out/rlib"):
        shutil.copytree(built, room / built.relative_to(TOP), copy_function=os.link)
    for crate in crates:
        to = room / "crates" / crate / "must-fail"
        shutil.rmtree(to, ignore_errors=True)
        shutil.copytree(EDITS / crate, to)


def main():
    """Looks whether the edits apply, and tries them; the status."""
    parser = argparse.ArgumentParser(description=__doc__, formatter_class=argparse.RawDescriptionHelpFormatter)
    parser.add_argument("crates", metavar="CRATE", nargs="*")
    parser.add_argument("--look", action="store_true", help="prove nothing, and say which edits no longer apply")
    words = parser.parse_args()
    known = sorted(folder.name for folder in EDITS.iterdir())
    for crate in words.crates:
        if crate not in known:
            parser.error(f"{crate} has no edits here; these have: {' '.join(known)}")
    crates = words.crates or known
    applies = look(crates)
    if words.look or not applies:
        return 0 if applies else 1
    # Beside the checkout, so that what was built can be linked and need not be copied.
    with tempfile.TemporaryDirectory(prefix="more-edits-", dir=TOP.parent) as folder:
        copy_to(pathlib.Path(folder), crates)
        return subprocess.run(["rt", "must-fail", *crates], cwd=folder).returncode


if __name__ == "__main__":
    sys.exit(main())
