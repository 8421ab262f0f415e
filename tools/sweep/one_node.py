#!/usr/bin/env python3
"""one_node.py COMMAND [WORD...]

Starts a Slurm cluster of one node on this machine (munged, slurmctld, slurmd), runs the command with SLURM_CONF in its
environment, and ends the cluster. Nothing of it lies outside a temporary folder. Linux, as root, with Debian munge,
slurmctld, slurmd and slurm-client; its ports are 6917 and 6918 of this machine."""
import argparse
import contextlib
import os
import pathlib
import shutil
import socket
import subprocess
import sys
import tempfile
import time

NEEDED = ("munged", "slurmctld", "slurmd", "sbatch", "sinfo")
CONFIGURATION = """ClusterName=sweep
SlurmctldHost={host}(127.0.0.1)
SlurmUser=root
SlurmctldPort=6917
SlurmdPort=6918
AuthType=auth/munge
AuthInfo=socket={folder}/munge.socket
CredType=cred/munge
StateSaveLocation={folder}/state
SlurmdSpoolDir={folder}/spool
SlurmctldPidFile={folder}/slurmctld.pid
SlurmdPidFile={folder}/slurmd.pid
SlurmctldLogFile={folder}/slurmctld.log
SlurmdLogFile={folder}/slurmd.log
ProctrackType=proctrack/linuxproc
TaskPlugin=task/none
SelectType=select/cons_tres
SelectTypeParameters=CR_Core
MpiDefault=none
ReturnToService=2
SchedulerParameters=sched_interval=1,sched_min_interval=0,bf_interval=1,batch_sched_delay=0
MaxArraySize={most}
NodeName={host} NodeAddr=127.0.0.1 CPUs={processors} State=UNKNOWN
PartitionName=sweep Nodes={host} Default=YES MaxTime=INFINITE State=UP
"""


def what_is_missing():
    """Why the cluster can't be had here, or None."""
    if os.geteuid() != 0:
        return "only root starts slurmd"
    missing = [name for name in NEEDED if shutil.which(name) is None]
    return f"not there: {', '.join(missing)}" if missing else None


def write_configuration(folder, processors, most):
    """Writes the key and the configuration of a cluster."""
    for part in ("state", "spool"):
        (folder / part).mkdir()
    (folder / "munge.key").write_bytes(os.urandom(1024))
    (folder / "munge.key").chmod(0o400)
    host = socket.gethostname().split(".")[0]
    text = CONFIGURATION.format(folder=folder, host=host, processors=processors, most=most)
    (folder / "slurm.conf").write_text(text)


def munge_words(folder):
    """The command that starts munge for a cluster."""
    return ["munged", "--foreground", "--force", f"--socket={folder}/munge.socket", f"--key-file={folder}/munge.key",
            f"--pid-file={folder}/munge.pid", f"--log-file={folder}/munge.log", f"--seed-file={folder}/munge.seed"]


def wait_until(is_so, what):
    """Waits until something is so, at most a minute."""
    for _ in range(300):
        if is_so():
            return
        time.sleep(0.2)
    raise RuntimeError(f"{what} does not answer")


def is_idle(environment):
    """Whether the node waits for work."""
    told = subprocess.run(["sinfo", "-h", "-o", "%t"], env=environment, capture_output=True, text=True)
    return told.stdout.strip() == "idle"


@contextlib.contextmanager
def one_node(processors=1, most=1001):
    """Gives the environment of the cluster, for as long as it is used. A job array has less than `most` tasks."""
    folder = pathlib.Path(tempfile.mkdtemp(prefix="sweep-slurm-"))
    environment = {**os.environ, "SLURM_CONF": str(folder / "slurm.conf")}
    begun = []

    def begin(words):
        quiet = {"stdin": subprocess.DEVNULL, "stdout": subprocess.DEVNULL, "stderr": subprocess.DEVNULL}
        begun.append(subprocess.Popen(words, env=environment, cwd=folder, **quiet))

    try:
        write_configuration(folder, processors, most)
        begin(munge_words(folder))
        wait_until((folder / "munge.socket").exists, "munged")
        begin(["slurmctld", "-D"])
        begin(["slurmd", "-D"])
        wait_until(lambda: is_idle(environment), "slurmctld")
        yield environment
    finally:
        for process in reversed(begun):
            process.terminate()
            process.wait()
        shutil.rmtree(folder, ignore_errors=True)


def main():
    """Runs a command with a cluster; its status."""
    parser = argparse.ArgumentParser(description=__doc__, formatter_class=argparse.RawDescriptionHelpFormatter)
    parser.add_argument("command", metavar="COMMAND")
    parser.add_argument("words", metavar="WORD", nargs=argparse.REMAINDER)
    words = parser.parse_args()
    if what_is_missing():
        print(what_is_missing(), file=sys.stderr)
        return 2
    with one_node() as environment:
        return subprocess.run([words.command, *words.words], env=environment).returncode


if __name__ == "__main__":
    sys.exit(main())
