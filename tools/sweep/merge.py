"""What the answers of a sweep say together: counts by verdict and reason, the crossings that were seen, and the tables.

An answer counts only whole: for this manifest, for this batch as it is, with a line for each secret. Each batch has one
answer, so no secret is counted twice."""
import csv
import hashlib
import io
import json
import os

from batch import ACCEPTED, FILES, REJECTED, cut_in, digest, is_whole, put, read
from secret_lists import shown

FIRST = 3
ACCEPTED_ROW = "accepted"


class Contradiction(Exception):
    """Answers that no built `check` gives together, if it does what is proved of it."""


def answer_of(folder, number, sweep):
    """The answer of a batch, or None where none is there, or one that is not whole."""
    try:
        answer = json.loads(read(os.path.join(folder, "answers", number)))
        batch = read(os.path.join(folder, "batches", number))
        if (answer["manifest"], answer["batch"], answer["secrets"]) != (sweep.identity, number, digest(batch)):
            return None
        parts = cut_in(batch.decode().split(), sweep.manifest["call"])
        under = sweep.manifest["under"]
        pairs = zip(parts, answer["calls"], strict=True)
        if all("died" in call or is_whole(call["lines"], call["status"], len(part), under) for part, call in pairs):
            return answer
    except (OSError, ValueError, KeyError, TypeError, AttributeError):
        pass
    return None


def is_judged(answer):
    """Whether an answer is there and none of its calls died."""
    return answer is not None and not any("died" in call for call in answer["calls"])


def reason_of(text):
    """The reason of a rejection: its words without what differs from secret to secret."""
    words = text.split()
    if words[0] == "region":
        return f"region {words[2]}"
    if words[0] == "replay":
        return " ".join(words[: 3 if words[1] == "guest" else 2])
    return " ".join(words[: 2 if words[0] == "guest" else 1])


class Merged:
    """The counts of a sweep, over its answers in order."""

    def __init__(self, folder, sweep):
        self.folder, self.sweep = folder, sweep
        self.budget = sweep.manifest["under"]["budget"]
        self.names = json.loads(read(os.path.join(folder, "names.json"))) if sweep.secrets.names is not None else None
        self.counts = {}
        self.firsts = {}
        self.crossings = {}
        self.unjudged = []
        self.seconds = self.processor = 0.0

    def take_all(self):
        """Takes every batch, puts the table of verdicts, and compares what was seen with the bound."""
        path = os.path.join(self.folder, "verdicts.csv")
        with open(f"{path}.new", "w", encoding="utf-8", newline="") as file:
            self.rows = csv.writer(file, lineterminator="\n")
            self.rows.writerow(["number", "secret", "verdict", "bits", "crossing", "output", "status", "why"])
            for index, number in enumerate(self.sweep.numbers()):
                self.take_batch(number, 1 + index * self.sweep.batch)
        os.replace(f"{path}.new", path)
        self.compare_with_the_bound()
        return self

    def take_batch(self, number, first):
        answer = answer_of(self.folder, number, self.sweep)
        lines = read(os.path.join(self.folder, "batches", number)).decode().split()
        parts = cut_in(lines, self.sweep.manifest["call"])
        calls = answer["calls"] if answer else [{"died": "no answer came back"}] * len(parts)
        for part, call in zip(parts, calls):
            self.seconds += call.get("seconds", 0)
            self.processor += call.get("processor", 0)
            if "died" in call:
                self.unjudged.append((number, first, first + len(part) - 1, call["died"]))
            else:
                for at, (line, verdict) in enumerate(zip(part, call["lines"])):
                    self.take(first + at, line, verdict)
            first += len(part)

    def name_of(self, number, line):
        return printable(self.names[number - 1]) if self.names is not None else shown(line)

    def take(self, number, line, verdict):
        name = self.name_of(number, line)
        accepted = ACCEPTED.fullmatch(verdict)
        if accepted:
            bits, crossing, output, status = accepted.groups()[1:]
            self.count(ACCEPTED_ROW, number, name)
            self.cross((int(bits), crossing), (int(output), int(status)), number, name)
            self.rows.writerow([number, name, "accepted", bits, crossing, output, status, ""])
        else:
            why = REJECTED.fullmatch(verdict)[2]
            self.count(reason_of(why), number, name)
            self.rows.writerow([number, name, "rejected", "", "", "", "", why])

    def count(self, row, number, name):
        self.counts[row] = self.counts.get(row, 0) + 1
        firsts = self.firsts.setdefault(row, [])
        if len(firsts) < FIRST:
            firsts.append((number, name))

    def cross(self, crossing, output, number, name):
        seen = self.crossings.setdefault(crossing, [output, 0, number, name])
        seen[1] += 1
        if seen[0] != output:
            raise Contradiction(f"secrets {seen[2]} and {number} have the same crossing and other outputs")

    def compare_with_the_bound(self):
        """The different crossings weigh at most 2^k, so there are at most 2^k; that is proved, and compared here."""
        lengths = {}
        for bits, _ in self.crossings:
            lengths[bits] = lengths.get(bits, 0) + 1
        if any(bits > self.budget for bits in lengths):
            raise Contradiction("an accepted secret let more bits cross than the budget")
        if sum(count << (self.budget - bits) for bits, count in lengths.items()) > 1 << self.budget:
            raise Contradiction("there are more different crossings than the bound allows")

    def reasons(self):
        """Accepted first, then the reasons, the most frequent first."""
        rows = [(-count, row) for row, count in self.counts.items() if row != ACCEPTED_ROW]
        return [ACCEPTED_ROW] + [row for _, row in sorted(rows)]

    def judged(self):
        return sum(self.counts.values())

    def crossings_by_count(self):
        return sorted(self.crossings.items(), key=lambda item: (-item[1][1], item[0]))

    def outputs_at_least(self):
        return len({output for output, *_ in self.crossings.values()})


def printable(name):
    """A file name in one line of text."""
    return "".join(byte if byte.isprintable() else f"\\x{ord(byte):02x}" for byte in name)


def power(budget):
    """The outputs that a budget allows, in words."""
    return f"2^{budget} = {1 << budget}" if budget <= 40 else f"2^{budget}"


def report_of(merged):
    """The report: the same text for the same verdicts, however the sweep was made."""
    manifest, under = merged.sweep.manifest, merged.sweep.manifest["under"]
    accepted = merged.counts.get(ACCEPTED_ROW, 0)
    lines = [f"manifest {merged.sweep.identity}"]
    lines += [f"{name} {under[name] or 'none'}" for name in sorted(FILES)]
    lines += [f"budget {under['budget']} turns {under['turns']}"]
    lines += [f"under {digest(json.dumps(under, sort_keys=True).encode())}"]
    lines += [f"secrets {manifest['secrets']['count']} judged {merged.judged()} accepted {accepted}"
              f" rejected {merged.judged() - accepted}"]
    for row in merged.reasons():
        firsts = ", ".join(f"{number} {name}" for number, name in merged.firsts.get(row, []))
        count = merged.counts.get(row, 0)
        lines.append(f"  {row} {count}" + (f", first {firsts}" if firsts else ""))
    lines.append(f"crossings {len(merged.crossings)} of at most {power(merged.budget)}")
    for (bits, crossing), (output, count, number, name) in merged.crossings_by_count()[:16]:
        lines.append(f"  bits {bits} crossing {crossing} output {output[0]} status {output[1]}: {count},"
                     f" first {number} {name}")
    if len(merged.crossings) > 16:
        lines.append(f"  and {len(merged.crossings) - 16} more in crossings.csv")
    if accepted:
        lines.append(f"outputs at least {merged.outputs_at_least()}, at most {len(merged.crossings)}")
    for number, first, last, died in merged.unjudged:
        lines.append(f"not judged: secrets {first} to {last}, in batch {number}: {died}")
    lines.append(f"verdicts {digest_of_file(os.path.join(merged.folder, 'verdicts.csv'))}")
    return "\n".join(lines) + "\n"


def digest_of_file(path):
    """The SHA-256 of a file, in hexadecimal."""
    found = hashlib.sha256()
    with open(path, "rb") as file:
        while part := file.read(1 << 20):
            found.update(part)
    return found.hexdigest()


def table(head, rows):
    """A table as bytes of CSV."""
    text = io.StringIO()
    writer = csv.writer(text, lineterminator="\n")
    writer.writerow(head)
    writer.writerows(rows)
    return text.getvalue().encode()


def write_tables(folder, merged):
    """Puts the report and the tables beside the answers."""
    reasons = [[row, merged.counts.get(row, 0), *[f"{number} {name}" for number, name in merged.firsts.get(row, [])]]
               for row in merged.reasons()]
    crossings = [[bits, crossing, *output, count, number, name]
                 for (bits, crossing), (output, count, number, name) in merged.crossings_by_count()]
    head = ["verdict", "secrets", "first", "second", "third"]
    put(os.path.join(folder, "reasons.csv"), table(head, reasons))
    head = ["bits", "crossing", "output", "status", "secrets", "first", "secret"]
    put(os.path.join(folder, "crossings.csv"), table(head, crossings))
    put(os.path.join(folder, "report.txt"), report_of(merged).encode())
