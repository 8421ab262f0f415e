"""Random guests whose regions look secrets up in tables, compare, sort and loop by them, for `bound --hold`.

A guest reads its secret, makes a region of random pieces, writes or exits with what the region declares, and is cut at
what leaves it. Most declarations are whole; some lack something, and some regions do what no region may."""
import json

from cuts import Cut
from guest import Image, Region
from hand_made import exit_words, read_words
from instructions import ALL
from program_files import BASE, plain_file
from worked_trial import number_word
from words import ADD, AUIPC, EBREAK, ECALL, JALR, LOAD, Writer
from words import branch_word, immediate_word, jump_word, register_word, store_word

STACK, SECRET, TABLE, ARRAY, COUNTER, LINK = 2, 8, 9, 20, 21, 1
WORK, TABLE_AT, ARRAY_AT = (5, 6, 7, 18, 19, 28, 29), 0x81, 0x82
OPERATIONS = [(0, minor) for minor in range(8)] + [(0x20, 0), (0x20, 5), (1, 0), (1, 5), (1, 7)]
BRANCHES, IMMEDIATES = (0, 1, 4, 5, 6, 7), (0, 2, 3, 4, 6, 7)
FEW = (1, 2, 3, 3, 4, 7, 7, 8, 12, 15, 15, 31, 63, 128, 255)


class HeldGuest:
    """A guest with one region, or two, and what it declares."""

    def __init__(self, dice, length):
        self.dice, self.length, self.writer, self.depth = dice, length, Writer(dice, BASE, 0), 0
        self.written, self.ranges, self.regions = set(), set(), []
        self.put(*read_words(length))
        for register, page in ((TABLE, TABLE_AT), (ARRAY, ARRAY_AT)):
            self.put(page << 12 | register << 7 | 0x37)
        self.put(immediate_word(0, SECRET, 11, 0))
        self.fill()

    def put(self, *words):
        """Writes words."""
        self.writer.put(*words)

    def happens(self, chance):
        """Whether something is to be done."""
        return self.dice.random() < chance

    def fill(self):
        """Makes a table of 16, 64 or 256 bytes."""
        self.size = self.dice.choice([16, 16, 64, 256])
        self.put(number_word(5, 0), number_word(6, self.size))
        begin = self.writer.here
        self.put(register_word(ADD, 7, TABLE, 5), immediate_word(4, 28, 5, self.dice.randrange(256)))
        self.put(*[immediate_word(7, 28, 28, self.dice.choice(FEW))] * self.happens(0.3))
        self.put(store_word(0, 7, 28, 0), immediate_word(0, 5, 5, 1))
        self.writer.place(self.writer.put_branch(1, 5, 6), begin)

    # ---- pieces

    def register(self):
        """A register to be written."""
        register = self.dice.choice(WORK)
        self.written.add(register)
        return register

    def any(self):
        """A register to be looked at."""
        return self.dice.choice(WORK + WORK + (0, SECRET, TABLE))

    def take(self):
        """Loads of the secret."""
        minor = self.dice.choice([4, 4, 4, 0, 2, 5, 1])
        width = {4: 1, 0: 1, 2: 4, 5: 2, 1: 2}[minor]
        place = self.dice.randrange(max(1, self.length - width + 1))
        self.put(immediate_word(minor, self.register(), SECRET, place, LOAD))

    def work(self):
        """An operation with two registers."""
        first, second = self.any(), self.any()
        self.put(register_word(self.dice.choice(OPERATIONS), self.register(), first, second))

    def change(self):
        """An operation with an immediate, or a shift."""
        first, dice = self.any(), self.dice
        if self.happens(0.3):
            self.put(immediate_word(dice.choice([1, 5]), self.register(), first, dice.randrange(8)))
        else:
            self.put(immediate_word(dice.choice(IMMEDIATES), self.register(), first, dice.choice([*FEW, -1, -8])))

    def index(self, most):
        """A register with a number below some power of two, in place."""
        register = self.register()
        kept = self.dice.choice([most - 1, most - 1, most // 2 - 1, most - 2])
        self.put(immediate_word(7, register, self.any(), kept))
        return register

    def look_up(self):
        """A byte or a word of the table, at a place that the secret may say."""
        index = self.index(self.size)
        minor = self.dice.choice([4, 4, 4, 0, 2])
        if minor == 2:
            self.put(immediate_word(7, index, index, -4 if self.happens(0.8) else -2))
        self.put(register_word(ADD, index, TABLE, index), immediate_word(minor, self.register(), index, 0, LOAD))

    def keep_byte(self):
        """A store into the array, at a place that the secret may say."""
        self.ranges.add("array")
        if self.happens(0.4):
            self.put(store_word(self.dice.choice([0, 0, 2]), ARRAY, self.any(), self.dice.randrange(4) * 4))
            return
        index = self.index(16)
        minor = self.dice.choice([0, 0, 0, 1, 2])
        self.put(*[immediate_word(7, index, index, -2 * minor)] * (minor > 0))
        self.put(register_word(ADD, index, ARRAY, index), store_word(minor, index, self.any(), 0))

    def take_back(self):
        """A load of the array."""
        self.put(immediate_word(self.dice.choice([4, 4, 2]), self.register(), ARRAY, 4 * self.dice.randrange(4), LOAD))

    def decide(self):
        """Some pieces that are made or not."""
        label = self.writer.put_branch(self.dice.choice(BRANCHES), *self.dice.sample([self.any(), self.any()], 2))
        self.some()
        if self.happens(0.4):
            behind = self.writer.put_jump(0)
            self.writer.place(label)
            self.some()
            label = behind
        self.writer.place(label)

    def rounds(self):
        """Some pieces a few times."""
        if self.depth > 1:
            return
        counter = COUNTER + self.depth
        self.written.add(counter)
        self.depth += 1
        self.put(number_word(counter, self.dice.randint(2, 5)))
        begin = self.writer.here
        self.some()
        self.put(immediate_word(0, counter, counter, -1))
        self.writer.place(self.writer.put_branch(1, counter, 0), begin)
        self.depth -= 1

    def count_down(self):
        """A loop that a register ends, mostly within some turns."""
        register = self.index(self.dice.choice([4, 8, 16]))
        label = self.writer.put_branch(0, register, 0)
        begin = self.writer.here
        self.put(*[immediate_word(0, 19, 19, self.dice.choice([1, 3]))] * self.happens(0.6))
        self.written.add(19)
        less, half = immediate_word(0, register, register, -1), immediate_word(5, register, register, 1)
        self.put(self.dice.choice([less, less, less, half]))
        self.writer.place(self.writer.put_branch(1, register, 0), begin)
        self.writer.place(label)

    def swap(self):
        """Two bytes of the secret in order."""
        self.ranges.add("secret")
        self.written |= {5, 6}
        first, second = self.dice.sample(range(max(2, self.length)), 2)
        self.put(immediate_word(4, 5, SECRET, first, LOAD), immediate_word(4, 6, SECRET, second, LOAD))
        label = self.writer.put_branch(self.dice.choice([6, 7]), 5, 6)
        self.put(store_word(0, SECRET, 6, first), store_word(0, SECRET, 5, second))
        self.writer.place(label)

    def jump(self):
        """A jump to one of a few places."""
        dice, register = self.dice, self.register()
        count = dice.choice([2, 4])
        self.put(immediate_word(7, register, self.any(), count - 1))
        self.put(immediate_word(1, register, register, dice.choice([3, 3, 3, 3, 2, 1])))
        base = dice.choice([one for one in WORK if one != register])
        self.written.add(base)
        self.put(base << 7 | AUIPC, register_word(ADD, register, base, register))
        self.put(immediate_word(0, 0, register, 12, JALR))
        labels = []
        for number in range(count):
            self.put(immediate_word(0, 19, 0, number))
            labels.append(self.writer.put_jump(0))
        self.written.add(19)
        for label in labels:
            self.writer.place(label)

    def go_deeper(self):
        """Some pieces with a frame on the stack, in which a register is saved."""
        if self.depth:
            return
        self.depth += 1
        self.ranges.add("stack")
        saved = self.register()
        self.written.add(STACK)
        self.put(immediate_word(0, STACK, STACK, -16), store_word(2, STACK, saved, 4))
        self.some()
        self.put(immediate_word(2, saved, STACK, 4, LOAD), immediate_word(0, STACK, STACK, 16))
        self.depth -= 1

    def spoil(self):
        """What no region may do, or mostly not."""
        dice = self.dice
        self.put(dice.choice([
            ECALL, EBREAK, 0, immediate_word(2, 5, self.any(), 0, LOAD), store_word(0, self.any(), 5, 0),
            immediate_word(0, 30, 0, 1), immediate_word(0, 0, self.any(), 0, JALR), jump_word(0, 2),
            branch_word(0, 0, self.any(), 0), store_word(0, ARRAY, 5, 40), immediate_word(0, SECRET, SECRET, 1),
            jump_word(0, 0),
        ]))
        self.written |= {5}

    def some(self):
        """A few pieces."""
        kinds = [self.take, self.take, self.work, self.change, self.look_up, self.keep_byte, self.take_back,
                 self.decide, self.decide, self.rounds, self.count_down, self.swap, self.jump, self.go_deeper]
        for _ in range(self.dice.choice([1, 1, 2, 2, 3])):
            if len(self.writer.words) < 180:
                self.dice.choice(kinds if self.depth < 3 else kinds[:7])()

    # ---- the region

    def enclose(self, number):
        """A region of some pieces."""
        dice = self.dice
        self.written, self.ranges, self.depth = set(), set(), 0
        enter = self.writer.here
        self.put(immediate_word(0, 0, 0, 0))
        for _ in range(dice.randint(1, 5)):
            self.some()
        if self.happens(0.12):
            self.spoil()
        if self.happens(0.4):
            register = self.register()
            self.put(immediate_word(7, register, self.any(), dice.choice(FEW)))
        if self.happens(0.3):
            self.compare()
        self.regions.append(self.declared(number, enter, self.writer.here))
        return self.regions[-1]

    def compare(self):
        """A register becomes -1, 0 or 1, or one of two numbers."""
        first, register = self.any(), self.register()
        second = self.any()
        self.put(number_word(19, self.dice.choice([0, 7])))
        self.written.add(19)
        label = self.writer.put_branch(self.dice.choice(BRANCHES), first, second)
        self.put(immediate_word(0, 19, 0, self.dice.choice([1, 8, 65])))
        if self.happens(0.5):
            self.put(immediate_word(0, register, 19, 0))
        self.writer.place(label)

    def declared(self, number, enter, leave):
        """What the region declares; sometimes it lacks something."""
        dice, written = self.dice, set(self.written)
        keep = {STACK} & written
        if self.happens(0.06) and written:
            written.discard(dice.choice(sorted(written)))
        if self.happens(0.08):
            keep.add(dice.choice(WORK))
        if self.happens(0.1):
            written.add(dice.choice(WORK))
        spans = {"array": (ARRAY, 0, 16), "secret": (SECRET, 0, max(2, self.length)), "stack": (STACK, ALL - 15, 16)}
        ranges = [spans[name] for name in sorted(self.ranges) if not self.happens(0.04)]
        if self.happens(0.1):
            ranges.append((ARRAY, dice.randrange(8), dice.randint(1, 8)))
        if self.happens(0.04):
            ranges.append((dice.choice([None, SECRET, 5]), dice.choice([0, ALL - 7]), 8))
        return Region(number, enter, leave, written - keep, keep, ranges)

    def finish(self):
        """Shows what the registers and the array hold, or exits with a bit of it; the file."""
        dice, shown = self.dice, sorted(self.written - {STACK, COUNTER}) or [5]
        for place in range(dice.randint(0, 3)):
            register = dice.choice(shown)
            if self.happens(0.5):
                self.put(immediate_word(7, register, register, dice.choice(FEW)))
            self.put(store_word(0, TABLE, register, place))
        self.put(immediate_word(0, 18, dice.choice(shown), 0))
        source, count = dice.choice([(TABLE, 3), (TABLE, 1), (ARRAY, 2), (ARRAY, 4)])
        self.put(number_word(10, 1), immediate_word(0, 11, source, 0), number_word(12, count), number_word(17, 64))
        self.put(ECALL, number_word(10, 0))
        if self.happens(0.5):
            label = self.writer.put_branch(dice.choice(BRANCHES), 18, dice.choice([0, dice.choice(shown)]))
            self.put(number_word(10, 1))
            self.writer.place(label)
        elif self.happens(0.5):
            self.put(immediate_word(7, 10, 18, dice.choice(FEW)))
        self.put(*exit_words())
        return plain_file(self.writer.body())


def item_of(region):
    """A region as an item of a region file."""
    names = [[f"x{number}" for number in numbers] for numbers in (region.outs, region.keep)]
    ranges = [{"offset": offset, "length": length} | ({"base": f"x{base}"} if base else {})
              for base, offset, length in region.ranges]
    return {"id": region.number, "enter": f"0x{region.enter:x}", "leave": f"0x{region.leave:x}",
            "outs": names[0], "keep": names[1], "ranges": ranges}


def output_points(dice, region):
    """Points at what leaves a region, some with all bits and some with few, or with none."""
    points = {}
    for number in region.outs:
        mask = dice.choice([0, 0, 1, 3, 7, 15, 255, 255, ALL, dice.choice(FEW)])
        if mask:
            points[region.number, region.leave, f"x{number}"] = [], [(1, mask)]
    for index, _ in enumerate(region.ranges):
        mask = dice.choice([0, 0, 1, 7, 255])
        if mask:
            points[region.number, region.leave, f"r{index}"] = [], [(1, mask)]
    return points


def held_guest(dice):
    """The parts of a random guest: its file, its regions, the length of its secret and a first cut."""
    length = dice.choice([1, 1, 1, 2, 3, 4])
    guest = HeldGuest(dice, length)
    for number in range(1, dice.choice([2, 2, 2, 3])):
        guest.enclose(number)
    file, points = guest.finish(), {}
    for region in guest.regions:
        points |= output_points(dice, region)
    skip = [region.number for region in guest.regions if dice.random() < 0.88]
    return file, guest.regions, Cut(length, 0, skip, points, dice.choice([1, 2])), Image(file)


def regions_file(regions):
    """The file of some regions."""
    return json.dumps({"regions": [item_of(region) for region in regions]}).encode()
