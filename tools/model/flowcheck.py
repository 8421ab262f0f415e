#!/usr/bin/env python3
"""The model as a command: answers a command line as `flowcheck` would, from files on the disk.

Call: flowcheck.py WORDS, as of the program. It knows `check`, `taint`, `measure`, `measure-all`, `graph`, `report`,
`learn`, `trial`, `verify` and `migrate`, and takes some seconds for what the program does in milliseconds."""
import os
import sys

sys.path.insert(0, os.path.dirname(os.path.abspath(__file__)))

from answers import answer_to


class Disk(dict):
    """The files of the disk by their names; a name that cannot be read has none."""

    def __contains__(self, name):
        if not dict.__contains__(self, name):
            try:
                with open(name, "rb") as file:
                    self[name] = file.read()
            except OSError:
                return False
        return True

    def __missing__(self, name):
        with open(name, "rb") as file:
            self[name] = file.read()
        return self[name]


def main():
    """Answers the words of the command line."""
    status, text = answer_to(Disk(), sys.argv[1:])
    sys.stdout.write(text)
    return status


if __name__ == "__main__":
    sys.exit(main())
