#!/usr/bin/env python3
"""batch.py FOLDER NUMBER...

Makes the calls of `check`, or of `bound`, of the batches with these numbers, one after the other, and puts what each
call answered to FOLDER/answers/NUMBER. It runs wherever an engine starts it, with Python 3 alone, and reads from FOLDER
nothing but `manifest.json`, the files that the manifest has the hashes of, and the batch, a secret or a public input a
line. The files are copied to a folder of this run, and the copies must have the hashes of the manifest: on other bytes
no call is made, and the status is 3. The status is 1 where a call died each time that it was tried."""
import hashlib
import json
import os
import re
import resource
import shutil
import signal
import subprocess
import sys
import tempfile
import time

TRIES = 2
FILES = ("flowcheck", "program", "public", "cut", "regions")
ACCEPTED = re.compile(r"accepted (\d+) bits (\d+) crossing (-|[0-9a-f]+) output (\d+) status (\d+)")
REJECTED = re.compile(r"rejected (\d+) ([a-z].*)")
BOUNDED = re.compile(r"bounded secret \d+(?: public \d+)? regions \d+ paths (\d+|-) stopped (\d+|-) "
                     r"outputs (\d+|-) bits (\d+)")
UNCLEAR = re.compile(r"unclear path \S+ bits \d+ ([a-z].*)")


class OtherBytes(Exception):
    """A file has other bytes than those that the manifest has the hash of."""


def digest(content):
    """The SHA-256 of bytes, in hexadecimal."""
    return hashlib.sha256(content).hexdigest()


def read(path):
    """The bytes of a file."""
    with open(path, "rb") as file:
        return file.read()


def put(path, content):
    """Puts all of a file or nothing: a run that is killed leaves no part of it under its name."""
    new = f"{path}.{os.uname().nodename}.{os.getpid()}.new"
    with open(new, "wb") as file:
        file.write(content)
    os.replace(new, path)


def secrets_of(batch):
    """The secrets of a batch: a line of hexadecimal each, a dash for no bytes."""
    return [b"" if line == b"-" else bytes.fromhex(line.decode()) for line in batch.split()]


def cut_in(items, size):
    """Items in pieces of a size."""
    return [items[at : at + size] for at in range(0, len(items), size)]


def is_whole(lines, status, count, under):
    """Whether these are the lines of a call on so many secrets, or on a public input, that ended with this status."""
    if under.get("command") == "bound":
        pattern = UNCLEAR if status else BOUNDED
        return status in (0, 1) and len(lines) == 1 and pattern.fullmatch(lines[0]) is not None
    if len(lines) != count + 1:
        return False
    accepted = 0
    for number, line in enumerate(lines[:-1], start=1):
        found = ACCEPTED.fullmatch(line) or REJECTED.fullmatch(line)
        if not found or int(found[1]) != number:
            return False
        accepted += found.re is ACCEPTED
    last = f"checked {count} accepted {accepted} budget {under['budget']}"
    return lines[-1] == last and status == int(accepted < count)


class Check:
    """Calls of the built program on the files of one manifest, in a folder that has copies of them."""

    def __init__(self, source, scratch, under):
        self.scratch, self.under = scratch, under
        for name in FILES:
            if under[name] is None:
                continue
            content = read(os.path.join(source, name))
            if digest(content) != under[name]:
                raise OtherBytes(f"{name} has other bytes than the manifest says: the bound covers no call on them")
            with open(os.path.join(scratch, name), "wb") as file:
                file.write(content)
        os.chmod(os.path.join(scratch, "flowcheck"), 0o700)
        self.program = os.path.join(scratch, "flowcheck")
        self.options = ["--turns", str(under["turns"])]
        if under["regions"] is not None:
            self.options += ["--regions", "regions"]

    def words(self, names):
        """The words of a call, but for the options."""
        return [self.program, "check", "program", "public", "cut", str(self.under["budget"]), *names]

    def call(self, secrets):
        """One call on at most 64 secrets, or on one public input: its lines, or how it died, with its seconds and those
        of its processor.

        The secrets' files are removed, since it is slow to write over them: ext4 flushes such files at once."""
        names = [f"s{number}" for number in range(1, len(secrets) + 1)]
        for name, secret in zip(names, secrets):
            with open(os.path.join(self.scratch, name), "wb", buffering=0) as file:
                file.write(secret)
        before, begin = resource.getrusage(resource.RUSAGE_CHILDREN), time.perf_counter()
        try:
            ended = subprocess.run(self.words(names) + self.options, cwd=self.scratch, stdin=subprocess.DEVNULL,
                                   stdout=subprocess.PIPE, stderr=subprocess.DEVNULL)
            status, text = ended.returncode, ended.stdout.decode(errors="replace")
        except OSError as fault:
            status, text = None, str(fault)
        seconds, after = time.perf_counter() - begin, resource.getrusage(resource.RUSAGE_CHILDREN)
        for name in names:
            os.unlink(os.path.join(self.scratch, name))
        processor = after.ru_utime + after.ru_stime - before.ru_utime - before.ru_stime
        answer = {"seconds": round(seconds, 6), "processor": round(processor, 6)}
        lines = text.splitlines()
        if text.endswith("\n") and is_whole(lines, status, len(secrets), self.under):
            return {**answer, "status": status, "lines": lines}
        return {**answer, "died": how_it_died(status, text)}

    def call_until_judged(self, secrets):
        for _ in range(TRIES):
            answer = self.call(secrets)
            if "died" not in answer:
                break
        return answer


class Bound(Check):
    """Calls of `bound`, each on one public input."""

    def __init__(self, source, scratch, under):
        super().__init__(source, scratch, under)
        self.options += ["--rules", str(under["rules"]), "--paths", str(under["paths"])]
        self.options += ["--any-public"] * under["any_public"]

    def words(self, names):
        """The words of a call, but for the options."""
        return [self.program, "bound", "program", *names, "cut", str(self.under["budget"])]


def caller(source, scratch, under):
    """What makes the calls of a manifest."""
    return (Bound if under.get("command") == "bound" else Check)(source, scratch, under)


def how_it_died(status, text):
    """How a call ended that has no whole answer, in words."""
    first = text.splitlines()[0][:200] if text else ""
    if status is None:
        return f"could not be started: {first}"
    how = f"killed by signal {-status}" if status < 0 else f"ended with status {status}"
    return f"{how}, and put {first!r}" if first else how


def run(folder, number, check, manifest, identity):
    """Makes the calls of one batch and puts the answer; how many of them died."""
    batch = read(os.path.join(folder, "batches", number))
    calls = [check.call_until_judged(part) for part in cut_in(secrets_of(batch), manifest["call"])]
    answer = {"manifest": identity, "batch": number, "secrets": digest(batch), "calls": calls}
    put(os.path.join(folder, "answers", number), json.dumps(answer).encode() + b"\n")
    return sum("died" in call for call in calls)


def main():
    """Makes the batches that are named; the status."""
    if len(sys.argv) < 3:
        print(__doc__, file=sys.stderr)
        return 2
    folder = sys.argv[1]
    content = read(os.path.join(folder, "manifest.json"))
    manifest = json.loads(content)
    signal.signal(signal.SIGTERM, lambda *_: sys.exit(128 + signal.SIGTERM))
    scratch = tempfile.mkdtemp(prefix="sweep-")
    try:
        check = caller(os.path.join(folder, "files"), scratch, manifest["under"])
        os.makedirs(os.path.join(folder, "answers"), exist_ok=True)
        died = [run(folder, number, check, manifest, digest(content)) for number in sys.argv[2:]]
        return int(any(died))
    except OtherBytes as fault:
        print(f"refused: {fault}", file=sys.stderr)
        return 3
    finally:
        shutil.rmtree(scratch, ignore_errors=True)


if __name__ == "__main__":
    sys.exit(main())
