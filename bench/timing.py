"""What a command takes: seconds, the seconds in which processors worked for it, memory, or instructions.

A measure is called with the words of a command, the first of them an absolute path, and a folder for what the command
puts, which is then in its file `put`. It gives what was taken, the most memory in bytes, the status, and what was
put. What stands on standard error is left out."""
import argparse
import os
import pathlib
import re
import subprocess
import time


def spent(words, folder):
    """The seconds of a command, and the seconds in which processors worked for it; memory, status and what it puts."""
    put = f"{folder}/put"
    begin = time.perf_counter()
    child = os.fork()
    if child == 0:
        try:
            out = os.open(put, os.O_WRONLY | os.O_CREAT | os.O_TRUNC)
            os.dup2(out, 1)
            os.dup2(os.open(os.devnull, os.O_WRONLY), 2)
            os.execv(words[0], words)
        finally:
            os._exit(127)
    _, status, usage = os.wait4(child, 0)
    seconds = time.perf_counter() - begin
    memory, status = 1024 * usage.ru_maxrss, os.waitstatus_to_exitcode(status)
    return seconds, usage.ru_utime + usage.ru_stime, memory, status, pathlib.Path(put).read_bytes()


def timed(words, folder):
    """The seconds of a command by the clock."""
    seconds, _, *rest = spent(words, folder)
    return seconds, *rest


def worked(words, folder):
    """The seconds in which processors worked for a command."""
    _, *rest = spent(words, folder)
    return tuple(rest)


def counted(words, folder):
    """The instructions of a command by valgrind, and no memory."""
    command = ["valgrind", "--tool=callgrind", f"--callgrind-out-file={folder}/counts", *words]
    done = subprocess.run(command, capture_output=True, check=False)
    collected = re.search(rb"Collected : (\d+)", done.stderr)
    if not collected:
        raise SystemExit(f"{words}: valgrind counts nothing:\n{done.stderr.decode(errors='replace')[:300]}")
    return int(collected[1]), 0, done.returncode, done.stdout


def counted_millions(words, folder):
    """The same in millions."""
    count, *rest = counted(words, folder)
    return count / 1e6, *rest


def in_turns(calls, times):
    """For each of these calls what it gives each time, called one after the other and so on, so many times."""
    return list(zip(*([call() for call in calls] for _ in range(times))))


def program(name):
    """The absolute path of a program, for argparse."""
    if not os.access(name, os.X_OK) or os.path.isdir(name):
        raise argparse.ArgumentTypeError(f"{name} is no program")
    return os.path.abspath(name)


def parser_of(text, *programs):
    """The parser of a script with this text for its help, whose first words are programs."""
    parser = argparse.ArgumentParser(description=text, formatter_class=argparse.RawDescriptionHelpFormatter)
    for name in programs or ("executable",):
        parser.add_argument(name, type=program, metavar=name.upper())
    return parser
