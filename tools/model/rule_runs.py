"""Runs again and again on one secret, each with a public input that a random rule chooses by the outputs so far."""
import random

from bounds import stands_for
from programs import random_bytes
from verdicts import real_run

ROUNDS, SECRETS = 3, 256


class Runs:
    """The runs of a guest by public input and secret, each made once; an output, or None where it does not exit."""

    def __init__(self, task):
        self.task, self.known = task, {}

    def output(self, public, secret):
        """The bytes and the status of a run that exits."""
        if (public, secret) not in self.known:
            task = self.task
            real = real_run(task.image, public, secret, task.regions, task.turns)
            is_exited = real.ending[0] == "exited"
            self.known[public, secret] = (bytes(real.guest.output), real.ending[1]) if is_exited else None
        return self.known[public, secret]


def rule(name, outputs, length):
    """The next public input of a random rule."""
    return random_bytes(random.Random(f"rule {name} {outputs}"), length)


def list_of(runs, name, secret):
    """The outputs of a secret, up to the first run that does not exit."""
    outputs = []
    while len(outputs) < ROUNDS:
        output = runs.output(rule(name, outputs, len(runs.task.public)), secret)
        if output is None:
            break
        outputs.append(output)
    return outputs


def lists_wrongs(name, bounds, counts):
    """What is wrong with the lists of outputs of all secrets of one byte; it counts what was tried."""
    runs = Runs(bounds.task)
    lists = [list_of(runs, name, bytes([secret])) for secret in range(SECRETS)]
    whole = {tuple(outputs) for outputs in lists if len(outputs) == ROUNDS}
    most, is_of_all = bounds.outputs() ** ROUNDS, not bounds.task.regions and not bounds.stopped
    counts["rules: tried with all secrets of a byte"] += 1
    counts["rules: tried where every run must exit"] += is_of_all
    counts["rules: tried where fewer lists than secrets may arise"] += most < SECRETS
    counts["rules: tried with several lists"] += len(whole) > 1
    counts["rules: tried with several lists, and fewer than secrets may arise"] += 1 < len(whole) and most < SECRETS
    if len(whole) > most:
        yield f"a rule has {len(whole)} lists of {bounds.outputs()} outputs"
    if is_of_all and any(len(outputs) < ROUNDS for outputs in lists):
        yield "a run by a rule does not exit"
    if not all(any(stands_for(pattern, *output) for pattern in bounds.patterns) for output in set(sum(lists, []))):
        yield "a run by a rule has an output that is not listed"
