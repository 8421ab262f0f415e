"""What the answers of a sweep of `bound` say together: a line for each public input, the counts by reason, and where
the most outputs are."""
import json
import os

from batch import BOUNDED, FILES, UNCLEAR, digest, put, read
from merge import answer_of, digest_of_file, printable, table
from secret_lists import shown

FIRST = 3
HEAD = ["number", "public", "bytes", "verdict", "paths", "stopped", "outputs", "bits", "why"]


class MergedBounds:
    """The answers of a sweep of `bound`, in order."""

    def __init__(self, folder, sweep):
        self.folder, self.sweep, self.under = folder, sweep, sweep.manifest["under"]
        self.names = json.loads(read(os.path.join(folder, "names.json"))) if sweep.secrets.names is not None else None
        self.rows, self.reasons, self.bounded, self.unjudged = [], {}, {}, []
        self.seconds = self.processor = 0.0

    def take_all(self):
        """Takes every batch."""
        for index, number in enumerate(self.sweep.numbers()):
            self.take_batch(number, 1 + index * self.sweep.batch)
        return self

    def take_batch(self, number, first):
        """Takes the answer of a batch, each call of which is one of a public input."""
        answer = answer_of(self.folder, number, self.sweep)
        lines = read(os.path.join(self.folder, "batches", number)).decode().split()
        calls = answer["calls"] if answer else [{"died": "no answer came back"}] * len(lines)
        for at, (line, call) in enumerate(zip(lines, calls)):
            self.seconds += call.get("seconds", 0)
            self.processor += call.get("processor", 0)
            if "died" in call:
                self.unjudged.append((first + at, number, call["died"]))
            else:
                self.take(first + at, line, call["lines"][0])

    def take(self, number, line, verdict):
        """Takes what was answered of a public input."""
        length = 0 if line == "-" else len(line) // 2
        name = printable(self.names[number - 1]) if self.names is not None else shown(line)
        name = "any" if self.under["any_public"] else name
        bounded = BOUNDED.fullmatch(verdict)
        if bounded:
            paths, stopped, outputs, bits = bounded.groups()
            self.bounded.setdefault((int(bits), outputs), []).append((number, name, length))
            self.rows.append([number, name, length, "bounded", paths, stopped, outputs, bits, ""])
            return
        why = UNCLEAR.fullmatch(verdict)[1]
        self.reasons.setdefault(reason_of(why), []).append((number, name, length))
        self.rows.append([number, name, length, "unclear", "", "", "", "", why])

    def most(self):
        """The most outputs with their bits, and where they stand; None where nothing is bounded. Of as many bits 2^64
        outputs or more are the most."""
        key = max(self.bounded, key=lambda key: (key[0], float("inf") if key[1] == "-" else int(key[1])), default=None)
        return key and (key, self.bounded[key])


def reason_of(why):
    """The reason of an unclear bound, without what differs from one to another."""
    words = why.split()
    return "base" if words[2:3] == ["base"] else words[0]


def places_text(places):
    """The first of some public inputs."""
    return ", ".join(f"{number} {name} of {length} byte{'' if length == 1 else 's'}"
                     for number, name, length in places[:FIRST])


def report_of(merged):
    """The report: the same text for the same answers, however the sweep was made."""
    under, count = merged.under, merged.sweep.count
    bounded = sum(map(len, merged.bounded.values()))
    lines = [f"manifest {merged.sweep.identity}"]
    lines += [f"{name} {under[name] or 'none'}" for name in sorted(FILES) if name != "public"]
    lines += [f"budget {under['budget']} turns {under['turns']} rules {under['rules']} paths {under['paths']}"
              + " any-public" * under["any_public"]]
    lines += [f"under {digest(json.dumps(under, sort_keys=True).encode())}"]
    lines += [f"publics {count} answered {len(merged.rows)} bounded {bounded} unclear {len(merged.rows) - bounded}"]
    for reason, places in sorted(merged.reasons.items(), key=lambda item: (-len(item[1]), item[0])):
        lines.append(f"  {reason} {len(places)}, first {places_text(places)}")
    for number, batch, died in merged.unjudged:
        lines.append(f"not answered: public input {number}, in batch {batch}: {died}")
    lines.append(f"bounds {digest_of_file(os.path.join(merged.folder, 'bounds.csv'))}")
    most = merged.most()
    if most:
        (bits, outputs), places = most
        lines.append(f"most outputs {outputs} bits {bits}: {len(places)} of {count}, first {places_text(places)}")
    return "\n".join(lines) + "\n"


def write_bounds(folder, merged):
    """Puts the table and the report beside the answers."""
    put(os.path.join(folder, "bounds.csv"), table(HEAD, merged.rows))
    put(os.path.join(folder, "report.txt"), report_of(merged).encode())
