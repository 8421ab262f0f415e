"""Tests of the archive that tools/packaging/archive.py makes, and of the installation, with no Rattle kit on the PATH.

Call: dist_tests.py [ARCHIVE] [--program FILE] [--root FOLDER]

  ARCHIVE         the archive, with its .sha256 beside it; without it one is made, twice, and both must be the same
  --program FILE  the built program of which it is made; crates/flowcheck/out/flowcheck without it
  --root FOLDER   a Debian system in this folder: all is done in there by chroot, which wants root

The archive is unpacked into an empty folder. All runs with /usr/bin:/bin as PATH, an empty HOME and no other variable:
the commands of its README as they stand there, the program, each script, the makefile for guests, the man page and the
completions; then `make install` and `make uninstall` of this repository. In /usr/bin stand Debian's python3, make,
gcc-riscv64-unknown-elf and man-db; in a FOLDER the first three are enough. The status is 0 only where all holds, 1
where something is wrong, and 2 where something that is wanted is not there."""
import argparse
import hashlib
import os
import re
import shutil
import subprocess
import sys
import tarfile
import tempfile

HERE = os.path.dirname(os.path.abspath(__file__))
sys.path[:0] = [HERE, os.path.join(os.path.dirname(HERE), "packaging")]

from expecting import TOP, Expectations, run_all
from install import BUILT, COMPLETIONS, PAGE, PROGRAM, SHARED

PATH = "/usr/bin:/bin"
WANTED = ("python3", "make", "riscv64-unknown-elf-gcc")
COUNTED = ("accepted 1 bits 1 crossing 01 output 0 status 1\naccepted 2 bits 1 crossing 01 output 0 status 1\n"
           "accepted 3 bits 1 crossing 00 output 0 status 0\nchecked 3 accepted 3 budget 1\n")
BOUNDED = "bounded secret 1 regions 0 paths 2 stopped 0 outputs 2 bits 1\n"
NAMED = re.compile(r"(?<![\w./-])(?:docs|examples|tools|crates|bench)/[\w./-]*\w")
# What the documents name and an archive has not: it is made, or only in the repository.
ELSEWHERE = re.compile(r"tools/(gate|tables|command_lines|quick)\b|crates/flowcheck/out|crates/\w+$")
GUEST = """
#include "flowcheck.h"
static __attribute__((noinline)) int parity(int x)
{ static volatile unsigned char seen; int p = 0; for (int i = 0; i < 8; i++) p ^= x >> i & 1; seen = p; return p; }
int main(void) { unsigned char s; read_secret(&s, 1); return parity(s); }
"""


def file_hash(path):
    """The SHA-256 of a file."""
    with open(path, "rb") as file:
        return hashlib.sha256(file.read()).hexdigest()


def blocks_of(text):
    """The indented blocks of a text, without their indent."""
    found = re.findall(r"(?m)^(?:    .*\n|\n(?=    ))+", text)
    return ["".join(line[4:] + "\n" for line in block.strip("\n").split("\n")) for block in found]


class DistTests(Expectations):
    """The tests."""

    def __init__(self, folder, archive, root):
        super().__init__(folder)
        self.archive, self.root = archive, root
        self.home, self.work = self.path("home"), self.path("work")
        os.mkdir(self.home)
        os.mkdir(self.work)
        with tarfile.open(archive) as packed:
            self.entries = packed.getmembers()
            packed.extractall(folder)
        self.tree = self.path(self.entries[0].name)
        self.shared = os.path.join(self.tree, SHARED)

    def inside(self, path):
        """How a path is named where the commands run."""
        return "/" + os.path.relpath(path, self.root) if self.root else path

    def ran(self, folder, *words):
        """The status of a command in a folder, without the kit, and what it prints."""
        changed = ["chroot", self.root] if self.root else []
        words = [*changed, "/usr/bin/env", "-i", f"PATH={PATH}", f"HOME={self.inside(self.home)}", "LC_ALL=C.UTF-8",
                 "sh", "-c", 'cd "$0" && exec "$@"', self.inside(folder), *words]
        done = subprocess.run(words, capture_output=True, text=True, check=False, stdin=subprocess.DEVNULL)
        if "Traceback" in done.stderr:
            self.wrongs.append(f"traceback: {' '.join(words)}\n{done.stderr}")
        return done.returncode, done.stdout, done.stderr

    def expect_run(self, what, folder, words, *told, status=0):
        """A command must end with a status, and say some words; what it prints."""
        done, output, error = self.ran(folder, *words)
        is_right = done == status and all(part in output + error for part in told)
        self.expect(f"{what}: {' '.join(words)}", is_right, f"status {done} {output[-800:]}{error[-800:]}")
        return output

    def test_archive(self):
        """The sum, the order, the owner, the time, and what does not belong there."""
        with open(f"{self.archive}.sha256", encoding="utf-8") as file:
            said = file.read().split()
        self.expect("archive: sum", said == [file_hash(self.archive), os.path.basename(self.archive)])
        names = [entry.name for entry in self.entries]
        self.expect("archive: order", names == sorted(names))
        self.expect("archive: one folder", {name.split("/")[0] for name in names} == {names[0]})
        owners = {(entry.uid, entry.gid, entry.uname) for entry in self.entries}
        self.expect("archive: owner", owners == {(0, 0, "root")})
        self.expect("archive: one time", len({entry.mtime for entry in self.entries}) == 1)
        self.expect("archive: rights", {oct(entry.mode) for entry in self.entries} == {"0o755", "0o644"})
        strange = [name for name in names if "__pycache__" in name or name.endswith((".pyc", ".html", ".report"))]
        self.expect("archive: strange files", not strange, " ".join(strange))
        with open(os.path.join(self.tree, "COMMIT"), encoding="utf-8") as file:
            told = re.fullmatch(r"commit [0-9a-f]{40}\nof .* UTC\nprogram sha256 ([0-9a-f]{64})\n", file.read())
        program = file_hash(os.path.join(self.tree, PROGRAM))
        self.expect("archive: COMMIT", told is not None and told[1] == program)

    def test_program(self):
        """The program, in its first example."""
        bit, program = os.path.join(self.shared, "examples", "bit"), self.inside(os.path.join(self.tree, PROGRAM))
        version = os.path.basename(self.tree).split("-")[1]
        self.expect_run("program", bit, [program, "--version"], f"flowcheck {version}\nproved with rattle-kit-")
        self.expect_run("program", bit, [program, "--help"], "Usage: flowcheck <COMMAND>", "  measure-all ")
        self.expect_run("program", bit, [program, "help", "check"], "<BUDGET>", "Status:", "Example")
        cut = self.expect_run("program", bit, [program, "measure", "program", "public", "secret3"])
        with open(os.path.join(bit, "cut"), encoding="utf-8") as file:
            self.expect("program: the cut", cut == file.read(), cut)
        run = ["program", "public", "cut", "1"]
        self.expect_run("program", bit, [program, "check", *run, "secret3", "secret5", "secret4"], COUNTED)
        self.expect_run("program", bit, [program, "bound", *run], BOUNDED)
        self.expect_run("program", bit, [program], "refused 2 usage", status=2)
        libraries = self.expect_run("program", bit, ["ldd", program])
        self.expect("program: its libraries", "not found" not in libraries, libraries)

    def test_readme(self):
        """The commands of the README, as they stand there, one block after the other."""
        with open(os.path.join(self.tree, "README.md"), encoding="utf-8") as file:
            text = file.read()
        self.expect("readme: filled in", not re.search(r"@\w+@", text))
        blocks = blocks_of(text)
        source = next(block for block in blocks if block.startswith("#include"))
        with open(os.path.join(self.work, "mine.c"), "w", encoding="utf-8") as file:
            file.write(source)
        first = [block for block in blocks if "flowcheck " in block or "explain.py" in block]
        told = ("flowcheck-cut 1\n", COUNTED, BOUNDED, "at most 1 bit of its secret")
        self.expect_run("readme", self.tree, ["sh", "-e", "-c", "".join(first)], *told)
        own = next(block for block in blocks if "mine.html" in block).replace("FOLDER", self.inside(self.tree))
        self.expect_run("readme", self.work, ["sh", "-e", "-c", own], "1 bit of mine.secret in mine.elf: mine.html")
        page = os.path.join(self.work, "mine.html")
        self.expect("readme: page", os.path.isfile(page) and "mine.c:7" in open(page, encoding="utf-8").read())

    def test_documents(self):
        """What the guide and the README name is there."""
        for place, document in ((self.tree, "README.md"), (self.shared, "docs/GUIDE.md")):
            with open(os.path.join(place, document), encoding="utf-8") as file:
                text = file.read()
            for name in sorted(set(NAMED.findall(text.replace(f"{SHARED}/", "")))):
                is_there = os.path.exists(os.path.join(self.shared, name))
                self.expect(f"documents: {document} names {name}", is_there or ELSEWHERE.match(name))
        for name in ("crates/commands/src/top.rt", "crates/commands/specs/Headline.antt", "docs/PROMISES.md"):
            self.expect(f"documents: {name}", os.path.isfile(os.path.join(self.shared, name)))

    def test_scripts(self):
        """Each script has its help, finds the program of the archive, and works with it."""
        tools = os.path.join(self.shared, "tools")
        program = self.inside(os.path.join(self.tree, PROGRAM))
        found = "import sys; sys.path.insert(0, 'explain'); import built_program; print(built_program.program_words())"
        self.expect_run("scripts", tools, ["python3", "-c", found], f"['{program}']\n")
        asked = ["make", "-f", "Makefile", "--eval", "asked: ; @echo $(FLOWCHECK)", "asked"]
        self.expect_run("scripts", os.path.join(self.shared, "examples/guests"), asked, "/bin/flowcheck\n")
        for name in sorted(name for name in os.listdir(tools) if name.endswith(".py")):
            self.expect_run("scripts", self.work, ["python3", self.inside(os.path.join(tools, name)), "--help"], name)
        folder = os.path.join(self.shared, "examples/bit")
        *bit, cut = (self.inside(os.path.join(folder, name)) for name in ("program", "public", "secret3", "cut"))
        self.write(parity_c=GUEST, nothing=b"", byte=b"a")
        shutil.move(self.path("parity.c"), self.work)
        guest = self.inside(os.path.join(self.shared, "examples/guests/Makefile"))
        self.expect_run("scripts", self.work, ["make", "-s", "-f", guest, "parity.elf"])
        nothing, byte = (self.inside(self.path(name)) for name in ("nothing", "byte"))
        for name, words, told in (
            ("explain.py", [*bit, "--text"], "at most 1 bit of its secret"),
            ("explain.py", [*bit[:2], "--bound", cut, "1", "--text"], "the output is one of 2"),
            ("run.py", bit, "exited with status 1"),
            ("lint.py", [bit[0], cut, "--public", bit[1], "--secret", bit[2]], ""),
            ("bound.py", [*bit[:2], "1"], "bound.cut"),
            ("enclose.py", ["parity.elf", nothing, byte], " measurements, "),
            ("regions.py", ["parity.elf", "parity", "--secret", byte], "the call of parity"),
        ):
            self.expect_run("scripts", self.work, ["python3", self.inside(os.path.join(tools, name)), *words], told)

    def test_sweep(self):
        """A sweep, where GNU parallel is there."""
        if not os.path.exists(f"{self.root or ''}/usr/bin/parallel"):
            self.leave_out("parallel")
            return
        bit = [self.inside(os.path.join(self.shared, "examples/bit", name)) for name in ("program", "public", "cut")]
        script = self.inside(os.path.join(self.shared, "tools/sweep.py"))
        words = ["python3", script, *bit, "1", "--random", "100", "--size", "1", "--jobs", "1"]
        self.expect_run("sweep", self.work, words, "secrets 100 judged 100 accepted 100 rejected 0")

    def test_pages(self):
        """The man page is shown without a warning, and bash reads its completion."""
        page = os.path.join(self.tree, PAGE)
        shown = ["/usr/bin/env", "-i", f"PATH={PATH}", "LC_ALL=C.UTF-8", "man", "--warnings", "-l", page]
        done = subprocess.run(shown, capture_output=True, text=True, check=False)
        is_right = (done.returncode, done.stderr) == (0, "") and "measure-all" in done.stdout
        self.expect("pages: man", is_right, done.stderr)
        looked = ["/usr/bin/env", "-i", f"PATH={os.path.join(self.tree, 'bin')}:{PATH}", "man", "-w", "flowcheck"]
        done = subprocess.run(looked, capture_output=True, text=True, check=False)
        self.expect("pages: man finds it", done.stdout.strip() == page, done.stdout + done.stderr)
        completion = self.inside(os.path.join(self.tree, next(name for name in COMPLETIONS if "bash" in name)))
        asked = '. "$0"; COMP_WORDS=(flowcheck meas) COMP_CWORD=1; _flowcheck; echo "${COMPREPLY[@]}"'
        self.expect_run("pages", self.work, ["bash", "-c", asked, completion], "measure measure-all\n")

    def test_installation(self):
        """`make install` puts what the archive has, and `make uninstall` leaves nothing of it."""
        stage = self.path("stage")
        words = ["make", "-s", "-C", TOP, f"DESTDIR={stage}", "PREFIX=/opt/flowcheck"]
        program = f"PROGRAM={os.path.join(self.tree, PROGRAM)}"
        all_files = self.files_of(self.tree) - {"README.md", "COMMIT"}
        install = ["install", program]
        for target, wanted in ((install, all_files), (install, all_files), (["uninstall"], set())):
            done = subprocess.run([*words, *target], capture_output=True, text=True, check=False)
            found = self.files_of(os.path.join(stage, "opt/flowcheck"))
            is_right = (done.returncode, done.stderr) == (0, "") and found == wanted
            self.expect(f"installation: {target[0]}", is_right, done.stderr + " ".join(sorted(found ^ wanted))[:800])
        none = [*words, "install", "PROGRAM=no-such-file"]
        done = subprocess.run(none, capture_output=True, text=True, check=False)
        is_told = done.returncode != 0 and "no-such-file is no built program" in done.stderr
        self.expect("installation: no program", is_told and not self.files_of(stage), done.stderr)

    @staticmethod
    def files_of(tree):
        """The names of the files in a folder, but for what Python and the tests have made there."""
        paths = (os.path.join(place, name) for place, _, names in os.walk(tree) for name in names)
        return {os.path.relpath(path, tree) for path in paths if "__pycache__" not in path}


def made(program, folder):
    """The path of an archive of this repository; it is made twice, and both must be the same."""
    script = os.path.join(os.path.dirname(HERE), "packaging", "archive.py")
    paths = []
    for name in ("first", "second"):
        words = [sys.executable, script, os.path.join(folder, name), "--program", program]
        done = subprocess.run(words, capture_output=True, text=True, check=False)
        if done.returncode:
            raise SystemExit(done.stderr.strip())
        paths.append(done.stdout.strip())
    if file_hash(paths[0]) != file_hash(paths[1]):
        raise SystemExit("two archives of one commit and one program differ")
    print("two archives are the same")
    return paths[0]


def main():
    """Runs the tests."""
    parser = argparse.ArgumentParser(description=__doc__, formatter_class=argparse.RawDescriptionHelpFormatter)
    parser.add_argument("archive", metavar="ARCHIVE", nargs="?")
    parser.add_argument("--program", metavar="FILE", default=BUILT)
    parser.add_argument("--root", metavar="FOLDER")
    words = parser.parse_args()
    root = os.path.realpath(words.root) if words.root else ""
    missing = [name for name in WANTED if not os.path.exists(f"{root}/usr/bin/{name}")]
    missing += [] if shutil.which("man") else ["man"]
    if missing:
        parser.error(f"not there: {', '.join(missing)}")
    if words.archive and not os.path.isfile(f"{words.archive}.sha256"):
        parser.error(f"there is no {words.archive}.sha256")
    with tempfile.TemporaryDirectory(prefix="archives-") as folder:
        archive = os.path.abspath(words.archive) if words.archive else made(words.program, folder)
        if root:
            tempfile.tempdir = os.path.join(root, "tmp")
        return run_all(DistTests, archive, root)


if __name__ == "__main__":
    sys.exit(main())
