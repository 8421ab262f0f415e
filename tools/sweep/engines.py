"""The engines that a sweep hands its batches to: GNU parallel, here or over ssh, and Slurm.

Both start `batch.py` with the numbers of batches, and neither is told anything else: what a batch is called with stands
in the manifest, and what it answered in its file. A sweep has no threads and keeps no processes of its own."""
import contextlib
import ctypes
import os
import re
import shlex
import shutil
import signal
import subprocess
import sys
import time

from batch import FILES
from secret_lists import Refused

TRIES = 2
WORKER = os.path.join("files", "batch.py")
END_WITH_PARENT = 1
JOBLOG = ("Seq", "Host", "Starttime", "JobRuntime", "Send", "Receive", "Exitval", "Signal", "Command")


def end_with_the_sweep():
    """Linux: an engine whose sweep is killed starts no more batches."""
    ctypes.CDLL(None).prctl(END_WITH_PARENT, signal.SIGTERM)


def agree(joblog, judged):
    """Lets a joblog have a line for each of these batches and for no other, so that all others are run.

    A kill may leave a part of a line, an answer whose line is not there yet, or a line whose answer is not there."""
    lines = {}
    if os.path.exists(joblog):
        with open(joblog, encoding="utf-8", errors="replace") as file:
            lines = {line.split("\t")[0]: line for line in file.read().split("\n") if line.count("\t") >= 8}
    with open(f"{joblog}.new", "w", encoding="utf-8") as file:
        file.write("\t".join(JOBLOG) + "\n")
        for number in judged:
            unknown = f"{int(number)}\t:\t0\t0\t0\t0\t0\t0\tanswered before a kill"
            file.write(lines.get(str(int(number)), unknown) + "\n")
    os.replace(f"{joblog}.new", joblog)


class Parallel:
    """GNU parallel: so many batches at a time on this machine, or those of the slots of an sshloginfile.

    The sequence numbers of its joblog are the numbers of the batches, so `--resume` passes over those that are done."""

    def __init__(self, jobs, hosts):
        self.jobs = jobs
        self.hosts = os.path.abspath(hosts) if hosts else None
        try:
            told = subprocess.run(["parallel", "--version"], capture_output=True, text=True).stdout
        except FileNotFoundError:
            told = ""
        if not told.startswith("GNU parallel"):
            raise Refused("GNU parallel is not there (Debian: parallel)")
        if hosts and shutil.which("rsync") is None:
            raise Refused("rsync is not there, by which GNU parallel transfers files (Debian: rsync)")

    def words(self, sweep):
        words = ["parallel", "--will-cite", "--plain", "--joblog", "joblog", "--resume", "--retries", str(TRIES)]
        words += ["--eta"] if sys.stderr.isatty() else []
        if self.hosts is None:
            return words + ["--jobs", str(self.jobs), shlex.quote(sys.executable), "-I", "-S", WORKER, ".", "{}"]
        words += ["--sshloginfile", self.hosts, "--cleanup", "--transferfile", "batches/{}", "--return", "answers/{}"]
        words += ["--workdir", self.place(sweep)]
        files = [os.path.join("files", name) for name in FILES if name in sweep.contents]
        for path in ["manifest.json", WORKER, *files]:
            words += ["--basefile", path]
        return words + [f"test -e {WORKER} || cd ..; python3 -I -S {WORKER} . {{}}"]

    def place(self, sweep):
        """The folder of the sweep on a host, in the home folder there.

        For the host `:`, which is this machine, GNU parallel transfers nothing, and makes it below the results."""
        return f"flowcheck-sweep-{sweep.identity[:16]}-{os.getpid()}"

    def run(self, folder, sweep, missing, lock):
        left = set(missing)
        agree(os.path.join(folder, "joblog"), [number for number in sweep.numbers() if number not in left])
        numbers = "".join(f"{number}\n" for number in sweep.numbers())
        ended = subprocess.run(self.words(sweep), cwd=folder, input=numbers.encode(), stdout=sys.stderr,
                               preexec_fn=end_with_the_sweep, pass_fds=[lock])
        with contextlib.suppress(FileNotFoundError):
            os.rmdir(os.path.join(folder, self.place(sweep)))
        if ended.returncode < 0 or ended.returncode > 101:
            print(f"parallel ended with status {ended.returncode}", file=sys.stderr)


class Slurm:
    """Slurm: a job array with a task for every batch, or, where there are more than it takes, for several.

    What sbatch must be told else (partition, time, account) stands in its environment, as SBATCH_PARTITION."""

    def __init__(self):
        if shutil.which("sbatch") is None:
            raise Refused("sbatch is not there (Debian: slurm-client)")

    def most_tasks(self):
        told = subprocess.run(["scontrol", "show", "config"], capture_output=True, text=True).stdout
        found = re.search(r"MaxArraySize\s*=\s*(\d+)", told)
        return int(found[1]) - 1 if found else 1000

    def cancel(self, folder):
        """Ends the array of an earlier run of this sweep, and waits until it is gone."""
        path = os.path.join(folder, "slurm.job")
        if not os.path.exists(path):
            return
        with open(path, encoding="utf-8") as file:
            job = file.read().strip()
        subprocess.run(["scancel", job], stderr=subprocess.DEVNULL)
        while subprocess.run(["squeue", "-h", "-j", job], capture_output=True, text=True).stdout.strip():
            time.sleep(1)
        os.remove(path)

    def script(self, folder, missing):
        """The script of the array: a task finds its batches in a line of a list."""
        tasks = min(len(missing), self.most_tasks())
        with open(os.path.join(folder, "slurm.tasks"), "w", encoding="utf-8") as file:
            file.writelines(" ".join(missing[task::tasks]) + "\n" for task in range(tasks))
        worker = "exec python3 -I -S files/batch.py . $(sed -n \"${SLURM_ARRAY_TASK_ID}p\" slurm.tasks)"
        return tasks, f"#!/bin/sh\n{worker}\n"

    def run(self, folder, sweep, missing, lock):
        self.cancel(folder)
        for attempt in range(TRIES):
            if attempt > 0:
                missing = sweep.missing(folder)
            if not missing:
                return
            tasks, script = self.script(folder, missing)
            words = ["sbatch", "--parsable", "--job-name", "flowcheck-sweep", "--array", f"1-{tasks}"]
            words += ["--chdir", folder, "--output", os.path.join(folder, "slurm.log"), "--open-mode", "append"]
            ended = subprocess.run(words, input=script, stdout=subprocess.PIPE, text=True)
            if ended.returncode != 0:
                raise Refused(f"sbatch ended with status {ended.returncode}")
            job = ended.stdout.strip().split(";")[0]
            with open(os.path.join(folder, "slurm.job"), "w", encoding="utf-8") as file:
                file.write(f"{job}\n")
            print(f"job {job}: {tasks} tasks for {len(missing)} batches", file=sys.stderr)
            self.wait(folder, job, len(sweep.numbers()))
        self.cancel(folder)

    def wait(self, folder, job, batches):
        """Waits until no task of the array is left, and tells on a terminal how many batches are done."""
        done = -1
        while True:
            left = subprocess.run(["squeue", "-h", "-r", "-j", job], capture_output=True, text=True).stdout.split("\n")
            now = sum(name.isdigit() for name in os.listdir(os.path.join(folder, "answers")))
            if now != done and sys.stderr.isatty():
                print(f"{now} of {batches} batches answered, {len(left) - 1} tasks left", file=sys.stderr)
                done = now
            if len(left) == 1:
                return
            time.sleep(1)
