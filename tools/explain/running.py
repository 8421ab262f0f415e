"""One run of a guest: what it writes, how it ends, and how much of its inputs it reads, by the model or by qemu."""
import os
import shutil
import subprocess
import sys
import tempfile

from guest import PUBLIC, SECRET, GuestExit, GuestFault, RealGuest, RegionBreak
from run_facts import read
from tool import Unusable, counted
from verdicts import walk

QEMU = "qemu-riscv32"
HANDED = "import os, sys; os.dup2(int(sys.argv[1]), 3); os.execvp(sys.argv[2], sys.argv[2:])"


class Ran:
    """A run: its output, its status or the reason why it has none, its turns where they are known, and for each input
    how many bytes were read and how many there are."""

    def __init__(self, output, status, reason, turns, public, secret):
        self.output, self.status, self.reason, self.turns = bytes(output), status, reason, turns
        self.public, self.secret = public, secret

    def lines(self, names):
        """What is said of the run, with the names of the public input and of the secret."""
        turns = f" after {counted(self.turns, 'turn')}" if self.turns is not None else ""
        ended = f"exited with status {self.status}{turns}" if self.reason is None else f"no status: {self.reason}"
        reads = (f"read {taken:,} of {counted(length, 'byte')} of {kind} {name}" for (taken, length), kind, name in
                 zip((self.public, self.secret), ("the public input", "the secret"), names))
        return [ended, f"wrote {counted(len(self.output), 'byte')}", *reads]


def reads_of(guest):
    """How many bytes a guest has read of its two inputs, and how many there are."""
    return [(guest.consumed[number], len(guest.inputs[number])) for number in (PUBLIC, SECRET)]


def run_by_model(image, public, secret, regions, limit, passed=None):
    """The run by the model, within so many turns; the points that it passes are added to a set."""
    passed = set() if passed is None else passed
    guest, status, reason, turns = RealGuest(image, public, secret, regions), None, None, 0
    while status is None and reason is None:
        if turns == limit:
            reason = f"it did not exit within {counted(limit, 'turn')}; --turns sets another number"
            break
        try:
            walk(guest.turn(), lambda visit: passed.add(visit[:3]) or visit[3])
        except GuestExit as exited:
            status = exited.status
        except (GuestFault, RegionBreak) as stop:
            reason = f"it was stopped: {stop}"
        turns += 1
    return Ran(guest.output, status, reason, turns, *reads_of(guest))


def output_by_qemu(program, public, secret, seconds=None):
    """The bytes and the status of a run by qemu; None where it does not exit, or not within so many seconds. The
    program must be executable."""
    words = ["sh", "-c", f'exec {QEMU} "$0" <"$1" 3<"$2" 2>&1', program, public, secret]
    try:
        done = subprocess.run(words, stdout=subprocess.PIPE, timeout=seconds, check=False)
    except subprocess.TimeoutExpired:
        return None
    return (done.stdout, done.returncode) if done.returncode >= 0 else None


def run_by_qemu(program, public, secret, seconds):
    """The run by qemu. What was read is seen from where the files stand afterwards."""
    if not shutil.which(QEMU):
        raise Unusable(f"there is no {QEMU}: apt-get install qemu-user, or take --by model")
    lengths = len(read(public)), len(read(secret))
    with tempfile.TemporaryDirectory() as folder, open(public, "rb") as first, open(secret, "rb") as second:
        copied = shutil.copyfile(program, os.path.join(folder, "program"))
        os.chmod(copied, 0o700)
        words = [sys.executable, "-c", HANDED, str(second.fileno()), QEMU, copied]
        try:
            done = subprocess.run(words, stdin=first, stdout=subprocess.PIPE, stderr=subprocess.STDOUT,
                                  pass_fds=[second.fileno()], timeout=seconds, check=False)
            output, status = done.stdout, done.returncode
            reason = f"it was stopped by signal {-status}" if status < 0 else None
        except subprocess.TimeoutExpired as late:
            output, status, reason = late.stdout or b"", None, f"it did not exit within {seconds} s"
        taken = [os.lseek(file.fileno(), 0, os.SEEK_CUR) for file in (first, second)]
    return Ran(output, None if reason else status, reason, None, *zip(taken, lengths))
