#!/usr/bin/env python3
"""try_rows.py FOLDER [--name ROW,..]

Gives the rows of FOLDER/rows.json that are command lines of the model to it, and compares status and text. Prints each
row that differs and last how many agree, differ and are passed over; the status is 1 where one differs. A row has
"name", "words", "files" and "status", and as text "stdout", "stdout_hex" or "stdout_lines" with lines that it has and
texts that it holds. A file is {"hex": ..}, {"text": ..}, {"repeat": [hex, count]}, {"points": n} (a certificate of n
points) or {"words_hex": [..]} (the program file of these words; "w*n" repeats one). Rows that write to a device are
passed over, and those of commands that the model does not have. Python 3 only."""
import argparse
import json
import pathlib
import sys
import time

from answers import OPTIONS, answer_to
from program_files import plain_file


def content(spec):
    """The bytes of a file of a row."""
    if "hex" in spec:
        return bytes.fromhex(spec["hex"])
    if "text" in spec:
        return spec["text"].encode()
    if "repeat" in spec:
        return bytes.fromhex(spec["repeat"][0]) * spec["repeat"][1]
    if "points" in spec:
        lines = [f"point 0 0x{4 * index:08x} rs capacity 1 flow 0 side t\n" for index in range(spec["points"])]
        return f"flowcheck-graph 1\nvalue 0\n{''.join(lines)}end\n".encode()
    words = [word.partition("*") for word in spec["words_hex"]]
    return plain_file(b"".join(int(word, 16).to_bytes(4, "little") * int(count or 1) for word, _, count in words))


def is_same(row, text):
    """Whether the text of a row is this one."""
    if "stdout_hex" in row:
        return text.encode() == bytes.fromhex(row["stdout_hex"])
    if "stdout" in row:
        return text == row["stdout"]
    lines = row["stdout_lines"]
    is_listed = set(lines.get("contains", [])) <= set(text.split("\n"))
    return is_listed and all(part in text for part in lines.get("contains_text", []))


def is_tried(row):
    """Whether the model has an answer to a row."""
    is_known = not row["words"] or row["words"][0] in OPTIONS
    return is_known and "stdout_to" not in row and not row.get("early")


def try_row(row):
    """Whether the model answers a row as it is written; prints what it answers where not."""
    begin = time.monotonic()
    files = {name: content(spec) for name, spec in row["files"].items()}
    status, text = answer_to(files, row["words"])
    if time.monotonic() - begin > 5:
        print(f"{row['name']} took {time.monotonic() - begin:.0f} seconds", flush=True)
    if status == row["status"] and is_same(row, text):
        return True
    print(f"{row['name']} {' '.join(row['words'])[:60]}: status {status}, {text[:1000]!r}", flush=True)
    return False


def main():
    """Reads the words of the command and tries the rows."""
    parser = argparse.ArgumentParser(description=__doc__, formatter_class=argparse.RawDescriptionHelpFormatter)
    parser.add_argument("folder", type=pathlib.Path)
    parser.add_argument("--name", metavar="ROW,..")
    words = parser.parse_args()
    rows = json.loads((words.folder / "rows.json").read_text())["rows"]
    if words.name:
        rows = [row for row in rows if row["name"] in words.name.split(",")]
    tried = [row for row in rows if is_tried(row)]
    agreed = sum(try_row(row) for row in tried)
    print(f"{agreed} agree, {len(tried) - agreed} differ, {len(rows) - len(tried)} passed over")
    return int(agreed < len(tried) or not tried)


if __name__ == "__main__":
    sys.exit(main())
