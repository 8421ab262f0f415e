"""The manifest of a sweep: what the bound has to be the same for, and which secrets are judged.

`under` has the SHA-256 of the program, the public input, the cut, the regions (null where there are none) and the built
program, the budget and the limit of turns. Calls that agree in these are covered by one bound, whoever makes them, so
the hash of `under` alone names the bound. `secrets` has the number of secrets and the SHA-256 of the lines that spell
them, and `call` and `batch` say how many secrets a call of check and how many a batch have.

The manifest of a sweep of `bound` has no public input in `under`, but the command, its table of rules, its limit of
walks and whether the public input may be any; and `publics` in the place of `secrets`."""
import hashlib
import json
import os

from batch import FILES, digest, put, read
from merge import answer_of, is_judged
from secret_lists import Refused, batches

CALL = 64
FEWEST_CALLS, MOST_CALLS, SPREAD = 4, 16, 32


def text_of(value):
    """The bytes of a value as JSON."""
    return (json.dumps(value, indent=2, sort_keys=True) + "\n").encode()


def calls_in_a_batch(calls, fewest):
    """How many calls make a batch: few where there are few calls, so that there are batches for many processors."""
    return min(max(-(-calls // SPREAD), fewest), MOST_CALLS)


class Sweep:
    """What is asked for: the bytes of the files, the list of secrets, and the manifest of both."""

    def __init__(self, paths, budget, turns, secrets, calls=None, earlier=None, bound=None):
        """Refused where an earlier manifest differs; batches are those of it where no number of calls is asked. `bound`
        has what a sweep of `bound` has in `under` besides."""
        self.contents = {name: read(path) for name, path in paths.items() if path is not None}
        self.secrets, self.kind, self.call = secrets, "publics" if bound else "secrets", 1 if bound else CALL
        count, lines = 0, hashlib.sha256()
        for batch in self.batches(CALL * MOST_CALLS):
            count += batch.count(b"\n")
            lines.update(batch)
        if count == 0:
            raise Refused("there are no public inputs" if bound else "there are no secrets")
        self.count = count
        self.batch = self.call * (calls or calls_in_a_batch(-(-count // self.call), 1 if bound else FEWEST_CALLS))
        if earlier and not calls:
            self.batch = earlier.get("batch", self.batch)
        under = {name: digest(self.contents[name]) if name in self.contents else None for name in FILES}
        self.manifest = {
            "form": "flowcheck-sweep 1",
            "under": {**under, "budget": budget, "turns": turns, **(bound or {})},
            self.kind: {"count": count, "sha256": lines.hexdigest()},
            "call": self.call,
            "batch": self.batch,
        }
        self.text = text_of(self.manifest)
        self.identity = digest(self.text)
        if earlier and earlier != self.manifest:
            parts = ", ".join(difference(earlier, self.manifest))
            raise Refused(f"the results are of a sweep with another manifest; it differs in: {parts}")

    def batches(self, size):
        """The batches of the list, with so many lines each."""
        return batches(self.secrets, size, self.kind == "publics")

    def numbers(self):
        """The names of the batches."""
        return [f"{number:06}" for number in range(1, -(-self.count // self.batch) + 1)]

    def missing(self, folder):
        """The batches whose secrets are not all judged."""
        return [number for number in self.numbers() if not is_judged(answer_of(folder, number, self))]

    def write(self, folder):
        """Puts the files and batches to the folder where they are not there, and the manifest last."""
        for part in ("files", "batches", "answers"):
            os.makedirs(os.path.join(folder, part), mode=0o700, exist_ok=True)
        for name, content in self.contents.items():
            put_new(os.path.join(folder, "files", name), content)
        worker = os.path.join(os.path.dirname(os.path.abspath(__file__)), "batch.py")
        put_new(os.path.join(folder, "files", "batch.py"), read(worker))
        if self.secrets.names is not None:
            put_new(os.path.join(folder, "names.json"), json.dumps(self.secrets.names).encode())
        lines = hashlib.sha256()
        for number, batch in zip(self.numbers(), self.batches(self.batch)):
            lines.update(batch)
            put_new(os.path.join(folder, "batches", number), batch)
        if lines.hexdigest() != self.manifest[self.kind]["sha256"]:
            raise Refused(f"the {self.kind} changed while they were read")
        put_new(os.path.join(folder, "manifest.json"), self.text)


def put_new(path, content):
    """Writes a file, if it has not these bytes already."""
    if not os.path.exists(path) or read(path) != content:
        put(path, content)


def difference(old, new):
    """In which of its parts a manifest differs from another."""
    kinds = [kind for kind in ("under", "secrets", "publics") if kind in new]
    pairs = [(part if kind == "under" else f"{part} of the {kind}", old.get(kind, {}).get(part), new[kind].get(part))
             for kind in kinds for part in new[kind]]
    pairs += [(part, old.get(part), new[part]) for part in ("form", "call", "batch")]
    return [name for name, before, after in pairs if before != after]
