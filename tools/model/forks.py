"""Pieces in which one thing depends on a bit of data (forks), and pieces that are strange whatever the data are.

In a fork register 5 is 0 or 1, and register 6 is for use. Most forks go wrong for one of both, so that of a secret and
the zeros of the replay one is stopped, or goes elsewhere."""
from instructions import ALL
from pieces import BRANCH_FORMS, BREAK, DATA, LOAD_FORMS, NUMBER, READ, STORE_FORMS, WRITE, Pieces
from words import (
    ADD,
    AND,
    AUIPC,
    EBREAK,
    ECALL,
    JALR,
    LOAD,
    MULTIPLY,
    XOR,
    branch_word,
    immediate_word,
    jump_word,
    register_word,
    store_word,
    upper_word,
)

BIT, SPARE, ROUNDS = 5, 6, 27
OPCODES = (0x13, 0x33, 0x67, 0x37, 0x6F, 0x73, 0x63, 0x03, 0x23, 0x0F, 0x17, 0x93, 0xB3, 0x83, 0)
COUNTS = ((0x100001, 1), (0x100001, 0), (2, 1), (3, 0), (1, 3), (0, 2), (4, 2), (ALL, 1))


class Forks(Pieces):
    """A program with forks. `strange` lists where they are; `inner` is a piece whose base register 5 is uncertain. The
    less `spread` is, the oftener regions are blocks; `outside` is how often a range of a region is no memory."""

    spread, outside = 1, 0.02

    def __init__(self, dice, code, data):
        super().__init__(dice, code, data)
        self.strange = []
        self.inner = None

    def take_bit(self):
        """Register 5 becomes a bit of the first bytes of data, perhaps turned over."""
        dice = self.dice
        self.put(immediate_word(4, BIT, DATA, dice.choice([0, 0, 0, 1, 2]), LOAD))
        if self.happens(0.15):
            self.put(immediate_word(5, BIT, BIT, dice.randrange(1, 8)))
        self.put(immediate_word(7, BIT, BIT, 1))
        if self.happens(0.3):
            self.put(immediate_word(4, BIT, BIT, 1))

    def choose(self, register, without, with_bit):
        """A register becomes one of two numbers, by the bit."""
        self.put_number(register, without)
        self.put_number(SPARE, with_bit - without)
        self.put(register_word(MULTIPLY, SPARE, BIT, SPARE), register_word(ADD, register, SPARE, register))

    def fork_load(self):
        """A load at the data or near 0."""
        dice = self.dice
        load = immediate_word(dice.choice(LOAD_FORMS), dice.choice([6, 7, 9]), BIT, dice.randrange(8), LOAD)
        self.put(register_word(MULTIPLY, BIT, BIT, DATA), load)

    def fork_store(self):
        """A store at the data or near 0."""
        store = store_word(self.dice.choice(STORE_FORMS), BIT, 7, self.dice.randrange(8))
        self.put(register_word(MULTIPLY, BIT, BIT, DATA), store)

    def fork_branch(self):
        """A branch to an address that is no multiple of 4, taken or not."""
        self.put(branch_word(self.dice.choice(BRANCH_FORMS), BIT, 0, self.dice.choice([2, 6, -2, 0xFFE])))

    def fork_target(self):
        """JALR to the next word or two bytes beside it."""
        self.put(immediate_word(4, BIT, BIT, 1), immediate_word(1, BIT, BIT, 1), upper_word(SPARE, 0, AUIPC))
        link, offset = self.dice.choice([0, 7]), 12 + self.dice.randrange(2)
        self.put(register_word(ADD, SPARE, BIT, SPARE), immediate_word(0, link, SPARE, offset, JALR))

    def fork_word(self):
        """An instruction whose first byte is stored just before it runs."""
        dice = self.dice
        word = dice.choice([self.small_word(), self.small_word(), ECALL, EBREAK, dice.randrange(1 << 32)])
        right, wrong = dice.choice(OPCODES), dice.choice(OPCODES)
        if self.happens(0.3):
            word, right, wrong = dice.choice([(EBREAK, 0x13, 0x73), (ECALL, 0x13, 0x73), (0x93, 0x13, 0)])
        self.put_number(SPARE, right ^ wrong)
        self.put(register_word(MULTIPLY, BIT, BIT, SPARE), immediate_word(4, BIT, BIT, wrong))
        self.put(upper_word(SPARE, 0, AUIPC), store_word(0, SPARE, BIT, 8), word)
        return word == ECALL or 0x73 in (right, wrong)

    def small_word(self):
        """Arithmetic, a load or JALR with small fields."""
        dice = self.dice
        registers = dice.choice([0, 5, 6, 7, 9]), dice.choice([5, 6, 7, 8, 8]), dice.choice([5, 6, 7, 8])
        return dice.choice([
            register_word((dice.choice([0, 0, 1]), dice.choice([0, 0, 1, 2, 4, 6, 7])), *registers),
            immediate_word(dice.choice([0, 0, 1, 2, 4, 5]), dice.choice([5, 6, 7, 9]), DATA, dice.randrange(16)),
            immediate_word(0, dice.choice([0, 1, 7]), SPARE, dice.randrange(16), JALR),
        ])

    def fork_count(self):
        """A write of one of two counts, perhaps of more than may be written."""
        self.choose(12, *self.dice.choice(COUNTS))
        self.put_number(10, 1)
        self.put(immediate_word(0, 11, DATA, self.dice.randrange(8)))
        self.put_number(NUMBER, WRITE)
        self.put(ECALL)
        return True

    def fork_number(self):
        """One of two calls."""
        dice = self.dice
        self.put_number(10, dice.choice([0, 1, 3]))
        self.put(immediate_word(0, 11, DATA, dice.randrange(8)))
        self.put_number(12, dice.randrange(4))
        self.choose(NUMBER, dice.choice([63, 64, 93, 94, 214, 57]), dice.choice([64, 64, 63, 214, 57]))
        self.put(ECALL)
        return True

    def fork_arguments(self):
        """A read or write on one of two descriptors, perhaps at one of two addresses."""
        dice = self.dice
        self.put(immediate_word(0, 10, BIT, dice.choice([0, 1, 2, 3])))
        is_near = self.happens(0.5)
        near, far = immediate_word(0, 11, DATA, dice.randrange(8)), register_word(MULTIPLY, 11, BIT, DATA)
        self.put(near if is_near else far)
        self.put_number(12, dice.randrange(1, 4))
        self.put_number(NUMBER, dice.choice([READ, WRITE]))
        self.put(ECALL)
        return True

    def fork_read(self):
        """A read of one of two counts."""
        dice = self.dice
        self.choose(12, dice.randrange(4), dice.randrange(4))
        self.put_number(10, dice.choice([0, 3, 3]))
        self.put(immediate_word(0, 11, DATA, dice.choice([8, 8, 0])))
        self.put_number(NUMBER, READ)
        self.put(ECALL)
        return True

    def fork_break(self):
        """A brk of one of two addresses."""
        self.put(upper_word(SPARE, 2), register_word(MULTIPLY, BIT, BIT, SPARE))
        self.put(upper_word(10, (self.data >> 12) + 1), register_word(ADD, 10, BIT, 10))
        self.put_number(NUMBER, BREAK)
        self.put(ECALL, store_word(2, DATA, 10, self.dice.randrange(8)))
        return True

    def fork_base(self):
        """A piece for a region with register 5 as base, which is one of two addresses."""
        self.put(register_word(self.dice.choice([MULTIPLY, MULTIPLY, ADD, AND, XOR]), BIT, DATA, BIT))
        begin = self.here
        for _ in range(self.dice.randint(1, 3)):
            self.dice.choice([self.arithmetic, self.load, self.store, self.same_value])()
        self.inner = begin, self.here

    def fork_path(self):
        """A branch over an instruction that stops the guest, or over one that does not."""
        label = self.put_branch(self.dice.choice([0, 1]), BIT, 0)
        wild = [immediate_word(2, 5, 0, 0, LOAD), store_word(2, 0, 5, 0), jump_word(0, -0x100000), jump_word(0, 2)]
        word = self.dice.choice([EBREAK, 0, ECALL, *wild])
        self.put(word)
        self.place(label)
        return word == ECALL

    def fork_end(self):
        """A branch over an exit, or over an endless jump."""
        label = self.put_branch(self.dice.choice([0, 1]), BIT, 0)
        (self.exit if self.happens(0.8) else self.endless)()
        self.place(label)
        return True

    def fork(self):
        """A fork: takes a bit and lets something depend on it."""
        begin = self.here
        self.take_bit()
        boundaries, decided = [begin, self.here], self.here
        forks = [self.fork_load, self.fork_store, self.fork_branch, self.fork_target, self.fork_count, self.fork_number]
        forks += [self.fork_arguments, self.fork_read, self.fork_break, self.fork_path, self.fork_end]
        has_call = self.dice.choice(forks + [self.fork_word] * 3 + [self.fork_base] * 2)()
        self.strange.append((decided, self.here))
        if not has_call:
            self.blocks.append(boundaries + [self.here])

    def oddity(self):
        """An instruction that is strange whatever the data are, or a jump back."""
        dice, register = self.dice, self.any_register()
        if self.blocks and self.happens(0.25):
            self.jump_back()
            return
        begin = self.here
        no_words = [0, ALL, 0x02101013, 0x00200073, 0x0000000B, 0x00003003, 0x40001013, dice.randrange(1 << 32)]
        self.put(dice.choice([
            EBREAK,
            dice.choice(no_words),
            jump_word(dice.choice([0, 1]), dice.choice([-0x100000, 0x1000, -0x8000, 2, 0x802])),
            immediate_word(0, register, self.any_register(), dice.randrange(4096), JALR),
            immediate_word(2, register, self.any_register(), dice.randrange(4096), LOAD),
            store_word(1, register, self.any_register(), dice.randrange(4096)),
            immediate_word(dice.choice(LOAD_FORMS), register, 2, 64 - dice.randrange(5), LOAD),
        ]))
        self.strange.append((begin, self.here))

    def jump_back(self):
        """A jump to an earlier piece, guarded by a counter in memory."""
        dice = self.dice
        self.put(immediate_word(4, BIT, DATA, 60, LOAD), immediate_word(0, BIT, BIT, 1), store_word(0, DATA, BIT, 60))
        self.put(immediate_word(2, BIT, BIT, dice.choice([2, 3])))
        target = dice.choice(dice.choice(self.blocks))
        self.put(branch_word(1, BIT, 0, target - self.here))

    def begin_rounds(self, count):
        """Begins a loop over all that follows; what is answered is for `end_rounds`."""
        if count == 1:
            return None
        self.put_number(ROUNDS, count)
        return self.here

    def end_rounds(self, top):
        """Ends the loop."""
        if top is not None:
            self.put(immediate_word(0, ROUNDS, ROUNDS, -1))
            self.put(branch_word(1, ROUNDS, 0, top - self.here))
