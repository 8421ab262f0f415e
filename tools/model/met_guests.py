"""Guests that come to the same state on several paths, and such that only seem to: a loop that decides by each byte of
the secret, with the answer of `bound` to each, worked out by hand; and random ones of the same kind."""
from cuts import Cut
from hand_made import ANSWER, BUFFER, COUNT, NUMBER, SECRET, exit_words, found, read_words, region_text, trial
from program_files import BASE, plain_file
from trial_cuts import joined
from words import AND, EBREAK, ECALL, LOAD, XOR, Writer, immediate_word, jump_word, register_word, store_word
from worked_trial import number_word

TAKEN, PLACE, LAST, ONE, SUM, KEPT = 6, 7, 28, 29, 8, 9
EQUAL, UNEQUAL = 0, 1
NOTHING = immediate_word(0, 0, 0, 0)
CLEAR = [number_word(register, 0) for register in (ANSWER, BUFFER, COUNT, NUMBER)]
CROSSED = [register_word(AND, KEPT, TAKEN, ONE), number_word(KEPT, 0)]


class Loop:
    """A guest that reads so many secret bytes, or bytes of another input, and decides by the lowest bit of each.
    `taken` are the words behind the decision 0, and `behind` those after them and behind the decision 1; a byte is in
    TAKEN, its address in PLACE."""

    def __init__(self, count, taken, behind=(), descriptor=SECRET):
        writer = self.writer = Writer(None, BASE, 0)
        self.count = count
        writer.put(*read_words(count, descriptor), number_word(ONE, 1))
        writer.put(immediate_word(0, PLACE, BUFFER, 0), immediate_word(0, LAST, BUFFER, count))
        begin = writer.here
        writer.put(immediate_word(4, TAKEN, PLACE, 0, LOAD), register_word(AND, TAKEN, TAKEN, ONE))
        self.decision = writer.here
        label = writer.put_branch(EQUAL, TAKEN, 0)
        writer.put(*taken)
        writer.place(label)
        self.behind = writer.here
        writer.put(*behind, store_word(0, PLACE, 0, 0), number_word(TAKEN, 0), immediate_word(0, PLACE, PLACE, 1))
        writer.place(writer.put_branch(UNEQUAL, PLACE, LAST), begin)

    def finish(self, *words):
        """The program file: it makes these words, and exits with the sum."""
        writer = self.writer
        writer.put(*words, immediate_word(0, ANSWER, SUM, 0), *exit_words())
        return plain_file(writer.body())

    def point(self, masks=(), rest=1):
        """The point of the decision."""
        return {(0, self.decision, "de"): (list(masks), [(1, rest)])}

    def trial(self, name, file, budget, text, *options, points=None):
        """A trial with a budget, whose cut has some points, or that of the decision."""
        return trial(name, file, Cut(self.count, budget, [], points or self.point()), text, *options)


def shown_words():
    """Writes a zero at the place."""
    arguments = [number_word(ANSWER, 1), immediate_word(0, BUFFER, PLACE, 0), number_word(COUNT, 1)]
    return [store_word(0, PLACE, 0, 0), *arguments, number_word(NUMBER, 64), ECALL]


def adding(number):
    """Adds a number to the sum."""
    return immediate_word(0, SUM, SUM, number)


def sum_trials():
    """Sums of the decisions, by as many walks as it takes and by one state for a round; and 2^64 paths."""
    loop, many, stops = Loop(8, [adding(1)]), Loop(64, [NOTHING]), Loop(3, [NOTHING])
    file, sums, most = loop.finish(), found(8, 256, 9, 4), "--paths=37"
    return [
        loop.trial("met-sum", file, 8, sums, most),
        loop.trial("met-sum-listed", file, 8, sums, most, points=loop.point([(7, 1)])),
        loop.trial("met-sum-short", file, 7, "unclear path 00 bits 8 budget 7 needed 8\n"),
        many.trial("met-many", many.finish(), 64, found(64, "-", 1, 0)),
        stops.trial("met-stops", stops.finish(EBREAK), 3, found(3, 8, 0, 0, stopped=8)),
    ]


def state_trials():
    """Places that differ by a mask that the first of two rounds has left, by what was written, and by a visit, of which
    the first lets a bit more cross."""
    masks = Loop(2, [number_word(TAKEN, 0)], [immediate_word(0, SUM, KEPT, 0), immediate_word(0, KEPT, TAKEN, 0)])
    file = masks.finish()
    left = f"unclear path 01 bits 2 left 0 0x{masks.writer.here - 4:08x} st mask 0x000000ff\n"
    written, visits = Loop(2, shown_words(), CLEAR), Loop(2, CROSSED)
    once = {(0, visits.decision + 4, "rs"): ([(1, 1)], [(1, 0)])}
    return [
        masks.trial("met-masks", file, 2, left),
        written.trial("met-written", written.finish(), 2, found(2, 4, 3, 2)),
        visits.trial("met-visits", visits.finish(), 3, found(2, 7, 1, 0), points=visits.point() | once),
    ]


def limit_trials():
    """The second of two rounds with more turns left than at first, with fewer, and with fewer bits left."""
    more, fewer = Loop(2, [NOTHING] * 3), Loop(2, [jump_word(0, 16)], [NOTHING] * 3)
    bits, stopped = Loop(2, [jump_word(0, 12)], CROSSED), found(2, 4, 1, 0, stopped=1)
    points = bits.point() | {(0, bits.behind, "rs"): ([], [(1, 1)])}
    return [
        more.trial("met-more-turns", more.finish(), 2, stopped, "--turns=30"),
        fewer.trial("met-fewer-turns", fewer.finish(), 2, stopped, "--turns=30"),
        bits.trial("met-fewer-bits", bits.finish(), 3, "unclear path 05 bits 4 budget 3 needed 4\n", points=points),
    ]


def begin(count):
    """A guest that has read so many secret bytes, and holds the lowest bit of the first."""
    writer = Writer(None, BASE, 0)
    writer.put(*read_words(count))
    again = writer.here
    writer.put(immediate_word(4, TAKEN, BUFFER, 0, LOAD), immediate_word(7, TAKEN, TAKEN, 1))
    return writer, again


def open_trial():
    """A loop that each decision may leave: its state is met while the paths below it are not done."""
    writer, again = begin(1)
    points = {(0, writer.here, "de"): ([], [(1, 1)])}
    writer.place(writer.put_branch(UNEQUAL, TAKEN, 0), again)
    writer.put(number_word(ANSWER, 0), *exit_words())
    text = found(1, 6, 1, 0, stopped=2)
    return trial("met-open", plain_file(writer.body()), Cut(1, 20, [], points), text, "--turns=20")


def entry_trial():
    """A region that two paths enter with another register, which it changes and gives back."""
    writer, _ = begin(1)
    points = {(0, writer.here, "de"): ([], [(1, 1)])}
    label = writer.put_branch(EQUAL, TAKEN, 0)
    writer.put(number_word(KEPT, 1))
    writer.place(label)
    enter = writer.here
    writer.put(number_word(KEPT, 0))
    points[1, writer.here, "de"] = [], [(1, 1)]
    label = writer.put_branch(EQUAL, TAKEN, 0)
    writer.put(NOTHING)
    writer.place(label)
    regions = region_text(enter, writer.here, [], ["s1"])
    writer.put(immediate_word(0, ANSWER, KEPT, 0), *exit_words())
    text = found(1, 4, 2, 1, regions=1)
    return trial("met-entry", plain_file(writer.body()), Cut(1, 2, [], points), text, regions=regions)


def met_trials():
    """The trials."""
    return sum_trials() + state_trials() + limit_trials() + [open_trial(), entry_trial()]


def random_words(dice):
    """Some words for a round."""
    words = [[NOTHING], [adding(1)], [adding(dice.randrange(4))], [register_word(XOR, SUM, SUM, ONE)], CROSSED,
             [immediate_word(7, SUM, SUM, 3)], shown_words() + CLEAR, [immediate_word(0, KEPT, TAKEN, 0)]]
    return sum(dice.choices(words, k=dice.randrange(4)), [])


def random_masks(dice):
    """The masks of a point: most visits let the bit cross."""
    runs = [(dice.randint(1, 6), dice.choice([1, 1, 1, 0])) for _ in range(dice.randrange(3))]
    return joined(runs), [(1, dice.choice([1, 1, 1, 1, 0]))]


def loop_trial(dice, turns, paths, table, is_any_public=False):
    """The files and words of a random trial; where the public input may be any, the loop may read that."""
    descriptor = 0 if is_any_public and dice.random() < 0.5 else 3
    loop = Loop(dice.randint(2, 12), random_words(dice), random_words(dice), descriptor)
    file = loop.finish(*([EBREAK] if dice.random() < 0.05 else []))
    points = loop.point() if dice.random() < 0.7 else {(0, loop.decision, "de"): random_masks(dice)}
    crossed = [loop.writer.code + 4 * index for index, word in enumerate(loop.writer.words) if word == CROSSED[0]]
    points |= {(0, address, "rs"): random_masks(dice) for address in crossed if dice.random() < 0.8}
    turns = turns if dice.random() < 0.6 else 8 + 10 * loop.count + dice.randrange(30)
    budget = dice.choice([100, 100, loop.count, loop.count + dice.randrange(8)])
    options = [f"--turns={turns}", f"--paths={paths}", f"--rules={table}", *["--any-public"] * is_any_public]
    cut, public = Cut(loop.count if descriptor else 1, budget, [], points), b"" if descriptor else bytes(loop.count)
    return trial("", file, cut, None, *options, public=public)[1:3]
