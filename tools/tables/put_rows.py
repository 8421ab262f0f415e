#!/usr/bin/env python3
"""put_rows.py FILE TABLE [--show]

Puts the rows of standard input in place of those of a table in FILE, the `stdin` or the `stdout` of a table program
that goes through several: those behind its line `table TABLE`, up to the next such line or the end. With --show it
prints the rows that there are instead, and changes nothing."""
import argparse
import pathlib
import sys


def lines_of(content):
    """The lines of a text, of which some have a carriage return within."""
    return content.decode().removesuffix("\n").split("\n")


def parts_of(path):
    """The rows of each table of a file, by its name."""
    parts, rows = {}, []
    for line in lines_of(pathlib.Path(path).read_bytes()):
        if line.startswith("table "):
            rows = parts.setdefault(line.removeprefix("table "), [])
        else:
            rows.append(line)
    return parts


def put(path, table, rows):
    """Puts rows, each without its line feed, in place of those of a table."""
    parts = parts_of(path)
    if table not in parts:
        sys.exit(f"{path} has no table {table}")
    parts[table] = rows
    lines = [line for name, rows in parts.items() for line in [f"table {name}", *rows]]
    pathlib.Path(path).write_bytes("".join(f"{line}\n" for line in lines).encode())


def main():
    """Puts the rows, or prints them."""
    parser = argparse.ArgumentParser(description=__doc__, formatter_class=argparse.RawDescriptionHelpFormatter)
    parser.add_argument("file", metavar="FILE")
    parser.add_argument("table", metavar="TABLE")
    parser.add_argument("--show", action="store_true", help="print the rows of the table, and change nothing")
    words = parser.parse_args()
    if words.show:
        print("\n".join(parts_of(words.file)[words.table]))
    else:
        put(words.file, words.table, lines_of(sys.stdin.buffer.read()))


if __name__ == "__main__":
    main()
