"""Guests around a kept register that takes up a secret byte inside a region and is right again where that is left, with
the answer of `bound` to each, worked out by hand."""
from cuts import Cut
from hand_made import ANSWER, BUFFER, exit_words, found, read_words, region_text, trial
from program_files import BASE, plain_file
from words import ADD, LOAD, XOR, Writer, immediate_word, register_word
from worked_trial import number_word

KEPT, TAKEN, SPARE = 8, 6, 7
BACK = 0x20, 0


def begin():
    """A guest that has read a secret byte into a register and holds 5 in another."""
    writer = Writer(None, BASE, 0)
    writer.put(*read_words(1), immediate_word(4, TAKEN, BUFFER, 0, LOAD), number_word(KEPT, 5))
    return writer


def finish(writer):
    """Exits with 1 where the register is 5, and else with 2. The file, and the address of the decision."""
    writer.put(number_word(SPARE, 5), number_word(ANSWER, 2))
    decision = writer.here
    label = writer.put_branch(1, KEPT, SPARE)
    writer.put(number_word(ANSWER, 1))
    writer.place(label)
    writer.put(*exit_words())
    return plain_file(writer.body()), decision


def there_and_back(there, back):
    """The register takes the byte up and gives it back: the file, where that begins and ends, and the decision."""
    writer = begin()
    enter = writer.here
    writer.put(register_word(there, KEPT, KEPT, TAKEN), register_word(back, KEPT, KEPT, TAKEN))
    leave = writer.here
    return *finish(writer), enter, leave


def secret_kept():
    """The register holds the byte, and inside it is put anew by a result that crosses."""
    writer = begin()
    writer.put(immediate_word(4, KEPT, TAKEN, 0))
    enter = writer.here
    writer.put(immediate_word(4, KEPT, TAKEN, 0))
    leave = writer.here
    return *finish(writer), enter, leave


def kept_trials():
    """The trials."""
    trials = []
    for name, there, back in (("xor", XOR, XOR), ("add", ADD, BACK)):
        file, decision, enter, leave = there_and_back(there, back)
        kept, out = region_text(enter, leave, [], ["s0"]), region_text(enter, leave, ["s0"], [])
        left = f"unclear path - bits 0 left 0 0x{decision:08x} de mask 0x00000001\n"
        both = {(0, decision, "de"): ([], [(1, 1)])}
        trials += [
            trial(f"kept-{name}", file, Cut(1, 0, [], {}), found(1, 1, 1, 0, regions=1), regions=kept),
            trial(f"kept-{name}-skipped", file, Cut(1, 0, [1], {}), found(1, 1, 1, 0, regions=1), regions=kept),
            trial(f"kept-{name}-as-output", file, Cut(1, 0, [], {}), left, regions=out),
            trial(f"kept-{name}-as-output-skipped", file, Cut(1, 0, [1], {}), left, regions=out),
            trial(f"kept-{name}-no-region", file, Cut(1, 0, [], {}), left),
            trial(f"kept-{name}-decided", file, Cut(1, 1, [], both), found(1, 2, 2, 1)),
        ]
    file, decision, enter, leave = secret_kept()
    kept, inner = region_text(enter, leave, [], ["s0"]), {(1, enter, "rs"): ([], [(1, 255)])}
    left = f"unclear path 00 bits 8 left 0 0x{decision:08x} de mask 0x00000001\n"
    trials.append(trial("kept-secret", file, Cut(1, 8, [], inner), left, regions=kept))
    before = {(0, enter - 4, "rs"): ([], [(1, 255)])}
    text = found(1, 256, 2, 1, regions=1)
    trials.append(trial("kept-secret-crossed", file, Cut(1, 8, [], before), text, regions=kept))
    return trials
