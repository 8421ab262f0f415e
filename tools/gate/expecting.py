"""What tests of scripts share: a folder for files, guests that are built there, scripts that are called, and the
expectations that are counted."""
import argparse
import os
import shutil
import subprocess
import sys
import tempfile

HERE = os.path.dirname(os.path.abspath(__file__))
TOP = os.path.dirname(os.path.dirname(HERE))
TOOLS = os.path.join(TOP, "tools")
MAKEFILE = os.path.join(TOP, "examples", "guests", "Makefile")
PIN = [os.path.join(TOP, name) for name in
       ("crates/machine_rows/data/pin-gcc.elf", "examples/guests/typed", "examples/guests/pin")]

MOST_DETAIL = 2000


def compilers():
    """The compilers that are there."""
    commands = (("gcc", "riscv64-unknown-elf-gcc"), ("clang", "ld.lld"))
    return [name for name, command in commands if shutil.which(command)]


class Expectations:
    """A folder, and what was expected and did not come."""

    def __init__(self, folder):
        self.folder, self.counts, self.wrongs, self.missing = folder, {}, [], []

    def expect(self, what, is_right, detail=""):
        """Counts an expectation, and notes it where it fails."""
        kind = what.split(":")[0]
        self.counts[kind] = self.counts.get(kind, 0) + 1
        if not is_right:
            self.wrongs.append(f"{what} {detail[:MOST_DETAIL]}")

    def leave_out(self, program):
        """Notes a program that is not there, and whose tests are left out."""
        self.missing.append(program)

    def path(self, name):
        """The path of a file in the folder."""
        return os.path.join(self.folder, name)

    def write(self, **files):
        """Writes files into the folder; `_c` at the end of a name is `.c`."""
        for name, data in files.items():
            with open(self.path(name.replace("_c", ".c") if name.endswith("_c") else name), "wb") as file:
                file.write(data.encode() if isinstance(data, str) else data)

    def call(self, script, *words, folder=None):
        """The status of a script, its standard output and its standard error; none may end with a traceback."""
        command = [sys.executable, os.path.join(TOOLS, script), *words]
        done = subprocess.run(command, capture_output=True, cwd=folder or self.folder, check=False)
        output, error = done.stdout.decode("utf-8", "replace"), done.stderr.decode("utf-8", "replace")
        if "Traceback" in error:
            self.wrongs.append(f"traceback: {script} {' '.join(words)}\n{error}")
        return done.returncode, output, error

    def make(self, *words, folder=None, makefile=MAKEFILE):
        """The status of make with a makefile, that of the guests without another, and what it prints."""
        command = ["make", "-s", "-f", makefile, *words]
        done = subprocess.run(command, capture_output=True, cwd=folder or self.folder, check=False, text=True)
        return done.returncode, done.stdout, done.stderr

    def built(self, source, compiler):
        """The path of the program file of a source in the folder."""
        name = source.removesuffix(".c") + ".elf"
        status, output, error = self.make("-B", f"COMPILER={compiler}", name)
        if status:
            raise SystemExit(f"{source} by {compiler}: {output}{error}")
        return self.path(name)


def run_tests(kind, description):
    """Takes no words, and runs the tests of a class."""
    argparse.ArgumentParser(description=description).parse_args()
    return run_all(kind)


def run_all(kind, *words):
    """Runs the methods of a class whose names begin with `test_`; the status is 1 where something is wrong."""
    with tempfile.TemporaryDirectory(prefix="tools-") as folder:
        tests = kind(folder, *words)
        for name in [name for name in dir(kind) if name.startswith("test_")]:
            getattr(tests, name)()
    print(", ".join(f"{count} {name}" for name, count in tests.counts.items()))
    if tests.missing:
        print(f"left out, for want of: {', '.join(tests.missing)}")
    print("\n".join(tests.wrongs) or "all right")
    return 1 if tests.wrongs else 0
