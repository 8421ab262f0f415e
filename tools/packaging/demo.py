"""Runs the first example of the README whole: a PIN pad of three tries.

Call: demo.py [--program FILE] [--output FOLDER]

It bounds the outputs of any PIN and of whatever is typed, measures one run, checks another PIN against the cut of that
run, and writes the page of the run. Each command is shown as a user would type it, with what it prints. The page is
FOLDER/pin.html (demo/pin.html without the option). The program is the one of the option, or the built one.

The status is 0, or that of the first command that fails."""
import argparse
import os
import shlex
import subprocess
import sys

TOP = os.path.dirname(os.path.dirname(os.path.dirname(os.path.abspath(__file__))))
BUILT = os.path.join("crates", "flowcheck", "out", "flowcheck")
GUEST, TYPED, CUT, PIN, OTHER = (
    "crates/machine_rows/data/pin-gcc.elf",
    *(f"examples/guests/{name}" for name in ("typed", "cut", "pin", "other")),
)


def steps(program, page):
    """What each step shows, and its command."""
    yield "Whatever is typed and whatever the PIN is: how many outputs are there?", [
        program, "bound", GUEST, TYPED, CUT, "3", "--any-public", "--list"]
    yield "One run, on the PIN 1234: how many bits pass, and where?", [program, "measure", GUEST, TYPED, PIN]
    yield "The PINs 1234 and 9999 against the cut of that run:", [program, "check", GUEST, TYPED, CUT, "3", PIN, OTHER]
    named = ["--flowcheck", shlex.quote(program), "--output", page]
    yield "The page of the run:", [sys.executable, "-B", "tools/explain.py", GUEST, TYPED, PIN, *named]


def shown(command):
    """A command as a user would type it."""
    name = {sys.executable: "python3"}.get(command[0], "flowcheck")
    return shlex.join([name, *(word for word in command[1:] if word != "-B")])


def main():
    """Reads the words of the command."""
    parser = argparse.ArgumentParser(description=__doc__, formatter_class=argparse.RawDescriptionHelpFormatter)
    parser.add_argument("--program", default=BUILT, metavar="FILE")
    parser.add_argument("--output", default="demo", metavar="FOLDER")
    words = parser.parse_args()
    os.chdir(TOP)
    program, page = os.path.abspath(words.program), os.path.join(words.output, "pin.html")
    if not os.access(program, os.X_OK):
        sys.exit(f"{program} is no program: make builds it")
    os.makedirs(words.output, exist_ok=True)
    for text, command in steps(program, page):
        print(f"\n{text}\n\n    {shown(command)}\n", flush=True)
        status = subprocess.run(command, check=False).returncode
        if status:
            sys.exit(status)
    print(f"\nOpen {os.path.abspath(page)} in a browser.")


if __name__ == "__main__":
    main()
