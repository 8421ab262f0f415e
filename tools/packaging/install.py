"""Installs the built program below a prefix, with its man page, completions, scripts, guests and documents.

Call: install.py PREFIX [--program FILE]
      install.py PREFIX --remove

  --program FILE  the built program; crates/flowcheck/out/flowcheck of this repository without it
  --remove        remove what was installed there

The program goes to PREFIX/bin, the pages to PREFIX/share, and all else to PREFIX/share/flowcheck, where files stand as
in the repository: the scripts of `tools` with what they import, `examples`, the documents, and the call `flowcheck`
with the definitions on which its contract stands. The scripts find the program from there. The status is 3 where a file
is not there, or cannot be written."""
import argparse
import os
import shutil
import sys

HERE = os.path.dirname(os.path.abspath(__file__))
sys.path[:0] = [os.path.join(os.path.dirname(HERE), name) for name in ("packaging", "explain", "model")]

from contents import TOP, contents
from help_table import table_of
from pages import COMPLETIONS, PAGE, texts_of
from tool import Unusable, finish

PROGRAM = "bin/flowcheck"
SHARED = "share/flowcheck"
BUILT = os.path.join(TOP, "crates", "flowcheck", "out", "flowcheck")


def put(path, content, is_executable=False):
    """Writes a file with the rights of an installed one, and its folders."""
    os.makedirs(os.path.dirname(path), exist_ok=True)
    with open(path, "wb") as file:
        file.write(content)
    os.chmod(path, 0o755 if is_executable else 0o644)


def read(path):
    """The bytes of a file."""
    with open(path, "rb") as file:
        return file.read()


def needed(program):
    """The path of a program, which must be there."""
    if not os.access(program, os.X_OK) or os.path.isdir(program):
        raise Unusable(f"{program} is no built program: `make` builds it where the Rattle kit is, and PROGRAM=FILE "
                      "names one that was built elsewhere")
    return os.path.abspath(program)


def install(prefix, program, date=""):
    """Installs a program and all that belongs to it in place of an earlier one; the table of its help."""
    table = table_of([needed(program)])
    remove(prefix)
    put(os.path.join(prefix, PROGRAM), read(program), is_executable=True)
    for name, text in texts_of(table, date).items():
        put(os.path.join(prefix, name), text.encode())
    for name in contents():
        source = os.path.join(TOP, name)
        is_script = os.access(source, os.X_OK) and not name.endswith(".elf")
        put(os.path.join(prefix, SHARED, name), read(source), is_script)
    return table


def remove(prefix):
    """Removes what was installed, where anything was; folders that others use stay."""
    shared = os.path.join(prefix, SHARED)
    if os.path.isdir(shared) and not os.path.exists(os.path.join(shared, "tools", "explain.py")):
        raise Unusable(f"{shared} has no tools/explain.py: it was not installed by this script, and stays")
    for name in (PROGRAM, PAGE, *COMPLETIONS):
        path = os.path.join(prefix, name)
        if os.path.exists(path):
            os.remove(path)
    if os.path.isdir(shared):
        shutil.rmtree(shared)


def main():
    """Installs or removes."""
    parser = argparse.ArgumentParser(description=__doc__, formatter_class=argparse.RawDescriptionHelpFormatter)
    parser.add_argument("prefix", metavar="PREFIX")
    parser.add_argument("--program", metavar="FILE", default=BUILT)
    parser.add_argument("--remove", action="store_true")
    words = parser.parse_args()
    if words.remove:
        remove(words.prefix)
    else:
        install(words.prefix, words.program)
    return 0


if __name__ == "__main__":
    finish(main)
