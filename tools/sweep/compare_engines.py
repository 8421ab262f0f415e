#!/usr/bin/env python3
"""compare_engines.py FLOWCHECK [--pins N]

Sweeps the first N PINs (10,000 without the option) of the example guest by each engine that can be had on this machine:
one batch at a time, two at a time, killed at half and resumed, over two ssh hosts that are network namespaces, over the
same with the second one down, and as a job array on a Slurm cluster of one node, with a task for each batch, with four
tasks, and killed at half and resumed. All must have the same report, tables and picture, by hash. Prints the seconds of
each whole command. As root, for the hosts and the cluster."""
import argparse
import os
import pathlib
import signal
import subprocess
import sys
import tempfile
import time

import one_node
import two_hosts
from tests import SWEEP, TOP, hashes

GUESTS = TOP / "examples/guests"
PROGRAM = [TOP / "crates/machine_rows/data/pin-gcc.elf", GUESTS / "typed", GUESTS / "cut", "3"]


def files_in(folder):
    """How many files a folder has, none where it is not there."""
    return len(os.listdir(folder)) if folder.exists() else 0


class Comparison:
    """A sweep of the PINs by one engine after another, whose results must be alike."""

    def __init__(self, flowcheck, pins, folder):
        self.flowcheck, self.folder = flowcheck, folder
        self.wanted = None
        self.failed = 0
        self.secrets = folder / "pins"
        self.secrets.write_text("".join(f"{pin:04}".encode().hex() + "\n" for pin in range(pins)))

    def words(self, name, more):
        words = [sys.executable, SWEEP, *PROGRAM, self.secrets, "--flowcheck", self.flowcheck]
        return [str(word) for word in [*words, "--results", self.folder / name, *more]]

    def run(self, name, *more, environment=None):
        """Sweeps once, and compares the results with those of the first sweep."""
        begin = time.perf_counter()
        ended = subprocess.run(self.words(name, more), env=environment, capture_output=True, text=True)
        seconds = time.perf_counter() - begin
        same = False
        if ended.returncode in (0, 1):
            found = hashes(self.folder / name)
            self.wanted = self.wanted or found
            same = found == self.wanted
        self.failed += not same
        told = "the same results" if same else "OTHER RESULTS"
        print(f"{name}: {seconds:.1f} s, {told}{self.places(name)}", flush=True)
        if not same:
            print(ended.stdout + ended.stderr)
        return ended

    def places(self, name):
        """How many batches each host made, by the joblog of GNU parallel."""
        joblog = self.folder / name / "joblog"
        if "hosts" not in name or not joblog.exists():
            return ""
        hosts = [line.split("\t")[1].split()[-1] for line in joblog.read_text().splitlines()[1:]]
        return "; " + ", ".join(f"{hosts.count(host)} batches by {host}" for host in sorted(set(hosts)))

    def hosts(self):
        if two_hosts.what_is_missing():
            print(f"two ssh hosts: not run, {two_hosts.what_is_missing()}")
            return
        with two_hosts.two_hosts() as (hosts, servers):
            self.run("two hosts", "--hosts", hosts)
            for name in two_hosts.HOSTS:
                look = ["ssh", "-F", hosts.parent / "ssh_config", name, "find . -name 'flowcheck-sweep*'"]
                left = subprocess.run(look, capture_output=True, text=True, cwd="/").stdout.split()
                print(f"  left on {name}: {left or 'nothing'}")
                self.failed += bool(left)
            two_hosts.stop(servers[1])
            self.run("two hosts, one down", "--hosts", hosts)

    def slurm(self):
        if one_node.what_is_missing():
            print(f"Slurm: not run, {one_node.what_is_missing()}")
            return
        with one_node.one_node() as environment:
            self.run("Slurm", "--slurm", environment=environment)
        with one_node.one_node(most=5) as environment:
            self.run("Slurm, four tasks", "--slurm", environment=environment)
            self.killed("Slurm, killed at half", "--slurm", environment=environment)

    def killed(self, name, *more, environment=None):
        """Kills a sweep when half of its batches are answered, and resumes it."""
        begun = subprocess.Popen(self.words(name, more), env=environment, stdout=subprocess.DEVNULL,
                                 stderr=subprocess.DEVNULL)
        answers = self.folder / name / "answers"
        batches = self.folder / name / "batches"
        while not (0 < files_in(batches) <= 2 * files_in(answers)):
            time.sleep(0.05)
        begun.send_signal(signal.SIGKILL)
        begun.wait()
        print(f"  killed after {files_in(answers)} of {files_in(batches)} batches")
        self.run(name, *more, "--resume", environment=environment)


def main():
    """Compares the engines; the status, 1 where results differ."""
    parser = argparse.ArgumentParser(description=__doc__, formatter_class=argparse.RawDescriptionHelpFormatter)
    parser.add_argument("flowcheck", type=pathlib.Path)
    parser.add_argument("--pins", type=int, default=10_000)
    args = parser.parse_args()
    with tempfile.TemporaryDirectory(prefix="sweep-engines-") as folder:
        comparison = Comparison(args.flowcheck.resolve(), args.pins, pathlib.Path(folder))
        one = comparison.run("one at a time", "--jobs", "1")
        print(one.stdout, end="")
        comparison.run("two at a time", "--jobs", "2")
        comparison.killed("killed at half", "--jobs", "1")
        comparison.hosts()
        comparison.slurm()
    print(f"{comparison.failed} failed")
    return int(comparison.failed > 0)


if __name__ == "__main__":
    sys.exit(main())
