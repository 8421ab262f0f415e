#!/usr/bin/env python3
"""fail_allocations.py EXECUTABLE

Runs each of some command lines with the first of its allocations failing, then with the second, and so on until a run
meets no failure. Each run must put the text with the status that the command line has with ample memory, or end with
status 8 and put nothing. The command lines are every command, over a guest that keeps one bit, one that branches on a
secret bit, one that counts bits in a loop and one that looks a secret up in a table, with and without a region, with
both versions of cuts and both tables of mask rules, and one of each refusal; `trial 6` is among them. A check of a loop
must have as many allocations whatever the number of turns. Prints a line for each command line, and last how many
allocations failed. Linux with gcc and the GNU C library."""
import argparse
import os
import pathlib
import subprocess
import sys
import tempfile

SHIM = """
#include <fcntl.h>
#include <stdlib.h>
#include <unistd.h>
extern void *__libc_malloc(size_t), *__libc_realloc(void *, size_t);
static int fails(void) {
    static long left = -1;
    if (left < 0) left = strtol(getenv("FAIL_AT"), 0, 10);
    if (left <= 0 || --left > 0) return 0;
    close(open(getenv("FAIL_TOLD"), O_CREAT | O_WRONLY, 0600));
    return 1;
}
void *malloc(size_t size) { return fails() ? 0 : __libc_malloc(size); }
void *realloc(void *old, size_t size) { return fails() ? 0 : __libc_realloc(old, size); }
"""
MOST = 1_000_000
READ = """
        addi a0, x0, 3          # the secret
        lui a1, 0x11
        addi a2, x0, 1
        addi a7, x0, 63
        ecall
        lbu t0, 0(a1)
"""
WRITE = """
        sb t1, 0(a1)
        addi a0, x0, 1          # the output
        addi a7, x0, 64
        ecall
        addi a0, x0, 0
        addi a7, x0, 93
        ecall
"""
LOW = READ + "andi t1, t0, 1\n" + WRITE
BRANCH = READ + "addi t1, x0, 89\nbne t0, x0, out\naddi t1, x0, 78\nout:" + WRITE
COUNT = READ + """
        addi t1, x0, 0
loop:   beq t0, x0, out
        andi t2, t0, 1
        beq t2, x0, next
        addi t1, t1, 1
next:   srli t0, t0, 1
        j loop
out:    andi t1, t1, 3
""" + WRITE
TABLE = READ + """
        andi t0, t0, 3
        la t2, letters
        add t2, t2, t0
        lbu t1, 0(t2)
        sb t1, 1(a1)
""" + WRITE + "letters: .byte 65\n.byte 66\n.byte 65\n.byte 67\n"
BRANCH_REGION = '{"regions":[{"id":1,"enter":"0x10018","leave":"0x10024","outs":["t1"]}]}'
COUNT_REGION = '{"regions":[{"id":1,"enter":"0x10018","leave":"0x10034","outs":["t0","t1","t2"]}]}'
TABLE_REGION = ('{"regions":[{"id":1,"enter":"0x10018","leave":"0x10030","outs":["t0","t1","t2"],'
                '"ranges":[{"base":"a1","offset":0,"length":2}]}]}')
NO_CUT = "flowcheck-cut 1\nsecret 1\nbits 0\nend\n"
OWN_CODE = READ + "lui a1, 0x10\nsb t0, 40(a1)\nnop\nnop\n" + WRITE
SOURCES = {"low": LOW, "branch": BRANCH, "count": COUNT, "table": TABLE, "own": OWN_CODE, "loop": "here: j here\n"}
FILES = {"none": "", "secret": "\x0b", "other": "\x04", "branch_region": BRANCH_REGION, "count_region": COUNT_REGION,
         "table_region": TABLE_REGION, "spoilt_regions": "[", "no_cut": NO_CUT, "spoilt_cut": "x", "spoilt": "x\n",
         "large": "x" * 1_048_577}
"""The files of the folder in which the command lines run, beside the guests and what is made of them."""


def made_files(executable, folder):
    """Writes the files, the guests, and a cut, a folded cut and a certificate of each guest that is measured."""
    def saved(name, *words):
        run = subprocess.run([executable, *words], cwd=folder, capture_output=True)
        if run.returncode != 0:
            sys.exit(f"{' '.join(words)}: {run.stdout!r}")
        (folder / name).write_bytes(run.stdout)

    for name, text in FILES.items():
        (folder / name).write_bytes(text.encode("latin-1"))
    for name, text in SOURCES.items():
        (folder / f"{name}.s").write_text(text)
        saved(name, "asm", f"{name}.s")
    for name in "low", "branch", "count", "table":
        saved(f"{name}.cut", "measure", name, "none", "secret")
        saved(f"{name}.graph", "graph", name, "none", "secret")
    for name in "branch", "count", "table":
        region = ["--regions", f"{name}_region"]
        saved(f"{name}.region_cut", "measure", name, "none", "secret", *region)


def command_lines():
    """The words of each command line, and the status that it has with ample memory."""
    for name in "low", "branch", "count", "table":
        yield 0, ["check", name, "none", f"{name}.cut", "64", "secret"]
        yield 0, ["taint", name, "none", f"{name}.cut", "64", "secret"]
        yield 0, ["measure-all", name, "none", "secret", "other"]
        for words in ["measure"], ["graph"], ["report"]:
            yield 0, [*words, name, "none", "secret"]
        yield 0, ["report", "--json", name, "none", "secret"]
        yield 0, ["measure", name, "none", "secret", "--cut", "2", "--rules=2"]
        yield 0, ["verify", f"{name}.graph"]
        yield 0, ["asm", f"{name}.s"]
        yield 0, ["list", name]
        yield 0, ["migrate", f"{name}.cut"]
    for name in "branch", "count", "table":
        region = ["--regions", f"{name}_region"]
        yield 0, ["check", name, "none", f"{name}.region_cut", "64", "secret", "secret", *region]
        yield 0, ["taint", name, "none", f"{name}.region_cut", "64", "secret", "secret", *region]
        yield 0, ["measure", name, "none", "secret", *region]
        yield 0, ["measure-all", name, "none", "secret", "other", "--cut", "2", *region]
        yield 0, ["learn", name, "none", "secret", f"{name}_region"]
        yield 0, ["graph", name, "none", "secret", "--rules", "2", *region]
        yield 0, ["report", name, "none", "secret", *region]
    yield 0, ["trial", "6"]
    yield 1, ["check", "branch", "none", "no_cut", "0", "secret", "other"]
    yield 1, ["taint", "branch", "none", "no_cut", "0", "secret", "other"]
    for name in "low", "branch":
        yield 0, ["bound", name, "none", f"{name}.cut", "64", "--list"]
    yield 1, ["bound", "branch", "none", "no_cut", "0"]
    yield 1, ["bound", "low", "none", "low.cut", "64", "--paths", "1"]
    yield 2, ["measure", "low", "none"]
    yield 3, ["measure", "spoilt", "none", "secret"]
    yield 3, ["check", "low", "none", "low.cut", "8", "secret", "--regions", "spoilt_regions"]
    yield 3, ["check", "low", "none", "spoilt_cut", "8", "secret"]
    yield 3, ["asm", "spoilt"]
    yield 3, ["verify", "spoilt"]
    yield 4, ["measure", "own", "none", "secret"]
    yield 4, ["report", "loop", "none", "secret", "--turns", "20"]
    yield 4, ["learn", "loop", "none", "secret", "branch_region", "--turns", "20"]
    yield 4, ["measure-all", "loop", "none", "secret", "other", "--turns", "20"]
    yield 5, ["measure", "low", "none", "missing"]
    yield 6, ["measure", "low", "large", "secret"]


def failures(words, status, folder, shim):
    """How many allocations of a command line failed in turn, and how many of these runs put the whole text; or what
    went wrong."""
    plain = subprocess.run(words, cwd=folder, capture_output=True)
    if plain.returncode != status:
        return f"status {plain.returncode}, wanted {status}: {plain.stdout!r}"
    told, whole = folder / "told", 0
    for number in range(1, MOST):
        env = {**os.environ, "LD_PRELOAD": str(shim), "FAIL_AT": str(number), "FAIL_TOLD": str(told)}
        run = subprocess.run(words, cwd=folder, env=env, capture_output=True)
        got = run.returncode, run.stdout
        if got not in [(8, b""), (status, plain.stdout)]:
            return f"allocation {number}: status {run.returncode}, {run.stdout!r}"
        if not told.exists():
            return (number - 1, whole) if got[0] == status else "status 8 where no allocation failed"
        told.unlink()
        whole += got[0] == status
    return "no run met every allocation"


def same_number(executable, folder, shim):
    """Whether a check of a loop has as many allocations with 10,000 turns as with 90,000: no turn takes memory."""
    loop = [executable, "check", "loop", "none", "no_cut", "0", "secret", "--turns"]
    few, many = (failures([*loop, turns], 1, folder, shim) for turns in ("10000", "90000"))
    print(f"check of a loop, 10,000 turns and 90,000: {few[0]} and {many[0]} failed")
    return few[0] == many[0]


def main():
    """Tries every command line; the status, 1 where one goes wrong."""
    parser = argparse.ArgumentParser(description=__doc__, formatter_class=argparse.RawDescriptionHelpFormatter)
    parser.add_argument("executable", metavar="EXECUTABLE", help="the built program")
    words = parser.parse_args()
    if not os.path.isfile(words.executable):
        parser.error(f"there is no file {words.executable}")
    executable, total, wrong = str(pathlib.Path(words.executable).resolve()), 0, 0
    with tempfile.TemporaryDirectory() as name:
        folder = pathlib.Path(name)
        shim = folder / "shim.so"
        subprocess.run(["gcc", "-shared", "-fPIC", "-x", "c", "-", "-o", shim], input=SHIM.encode(), check=True)
        made_files(executable, folder)
        for status, words in command_lines():
            found = failures([executable, *words], status, folder, shim)
            if isinstance(found, str):
                print(f"{' '.join(words)}: {found}")
                wrong += 1
                continue
            total += found[0]
            print(f"{' '.join(words)}: {found[0]} failed, {found[1]} of them with the whole text", flush=True)
        wrong += not same_number(executable, folder, shim)
    print(f"{total} allocations failed in turn: each other run ended with status 8 and put nothing; "
          f"{wrong} lines differ")
    return int(wrong > 0)


if __name__ == "__main__":
    sys.exit(main())
