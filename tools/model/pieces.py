"""Pieces of random programs. Register 8 holds the address of the data, where the inputs are read to."""
from instructions import ALL
from words import (
    ADD,
    AUIPC,
    ECALL,
    JALR,
    LOAD,
    LUI,
    Writer,
    immediate_word,
    jump_word,
    register_word,
    store_word,
    upper_word,
)

OPERATIONS = [(0, minor) for minor in range(8)] + [(0x20, 0), (0x20, 5)] + [(1, minor) for minor in range(8)]
LOAD_FORMS, STORE_FORMS, BRANCH_FORMS = (0, 1, 2, 4, 5), (0, 1, 2), (0, 1, 4, 5, 6, 7)
DATA, NUMBER = 8, 17
READ, WRITE, BREAK = 63, 64, 214


class Pieces(Writer):
    """A program of random pieces. `blocks` lists the boundaries of the pieces of each stretch without a call."""

    def __init__(self, dice, code, data):
        super().__init__(dice, code, data)
        self.blocks = []
        self.pool = dice.sample([1, 3, 4, 5, 6, 7, 9, 13, 14, 15, 16, 18, 19, 20, 28, 29, 30, 31], dice.randint(4, 8))

    def happens(self, probability):
        """Whether something with this probability happens."""
        return self.dice.random() < probability

    def any_register(self):
        """Mostly one of a few registers, which so meet often."""
        return self.dice.choice(self.pool) if self.happens(0.95) else self.dice.randrange(32)

    def set_register(self):
        """A register other than x0, for a value that is used."""
        return self.any_register() or 7

    def arithmetic(self):
        """An operation on two registers, or on one and an immediate."""
        dice = self.dice
        if self.happens(0.5):
            registers = (self.any_register(), self.any_register(), self.any_register())
            self.put(register_word(dice.choice(OPERATIONS), *registers))
            return
        minor = dice.choice([0, 0, 2, 3, 4, 6, 7, 7, 1, 5, 5])
        immediate = dice.choice([0, 1, 3, 7, 15, 255, -1, dice.randrange(4096)])
        if minor in (1, 5):
            kind = 0x400 if minor == 5 and self.happens(0.5) else 0
            immediate = dice.choice([dice.randrange(32), dice.randrange(9)]) | kind
        self.put(immediate_word(minor, self.any_register(), self.any_register(), immediate))

    def load(self, register=None, offset=None):
        """A load of data."""
        dice = self.dice
        if offset is None:
            offset = dice.randrange(8) if self.happens(0.5) else dice.randrange(-4, 44)
        register = self.any_register() if register is None else register
        self.put(immediate_word(dice.choice(LOAD_FORMS + (4, 4)), register, DATA, offset, LOAD))

    def load_small(self, register, most):
        """A register becomes data under a small mask."""
        self.load(register, self.dice.randrange(4))
        self.put(immediate_word(7, register, register, most))

    def store(self):
        """A store to the data."""
        dice = self.dice
        self.put(store_word(dice.choice(STORE_FORMS), DATA, self.any_register(), dice.randrange(-2, 40)))

    def simple(self, count):
        """Some arithmetic, loads and stores."""
        for _ in range(count):
            self.dice.choice([self.arithmetic, self.arithmetic, self.load, self.store])()

    def branch_over(self):
        """A branch over a few instructions."""
        dice = self.dice
        second = dice.choice([0, self.any_register()])
        label = self.put_branch(dice.choice(BRANCH_FORMS), self.any_register(), second)
        self.simple(dice.randint(1, 3))
        self.place(label)

    def loop(self):
        """A loop that runs a few times, perhaps as often as data says."""
        counter = self.set_register()
        if self.happens(0.5):
            self.put_number(counter, self.dice.randint(1, 5))
        else:
            self.load_small(counter, self.dice.choice([1, 3, 7]))
        top = self.here
        out = self.put_branch(0, counter, 0)
        self.simple(self.dice.randint(1, 3))
        self.put(immediate_word(0, counter, counter, -1))
        self.place(self.put_jump(0), top)
        self.place(out)

    def pointer(self):
        """A load or store through a pointer that depends on data."""
        dice, pointer = self.dice, self.set_register()
        self.load_small(pointer, dice.choice([1, 3, 7, 15]))
        self.put(register_word(ADD, pointer, DATA, pointer))
        if self.happens(0.6):
            word = immediate_word(dice.choice(LOAD_FORMS), self.any_register(), pointer, dice.randrange(8), LOAD)
        else:
            word = store_word(dice.choice(STORE_FORMS), pointer, self.any_register(), dice.randrange(8))
        self.put(word)

    def same_value(self):
        """Writes a register with the value that it has, or saves it, changes some and restores it."""
        register, offset = self.any_register(), 48 + 4 * self.dice.randrange(3)
        if self.happens(0.5):
            self.put(immediate_word(0, register, register, 0))
            return
        self.put(store_word(2, DATA, register, offset))
        for _ in range(self.dice.randint(1, 3)):
            self.arithmetic()
        self.put(immediate_word(2, register, DATA, offset, LOAD))

    def upper(self):
        """LUI or AUIPC."""
        self.put(upper_word(self.any_register(), self.dice.randrange(1 << 20), self.dice.choice([LUI, AUIPC])))

    def fence(self):
        """FENCE with any fields."""
        self.put(0x0F | self.dice.randrange(1 << 17) << 15 | self.dice.randrange(32) << 7)

    def jump_over(self):
        """A jump over some instructions."""
        label = self.put_jump(self.dice.choice([0, self.any_register()]))
        for _ in range(self.dice.randint(0, 2)):
            self.arithmetic()
        self.place(label)

    def jump_register_over(self):
        """JALR over some instructions, its target perhaps with bit 0 set."""
        dice, target, count = self.dice, self.set_register(), self.dice.randint(0, 2)
        link = dice.choice([0, self.any_register()])
        offset = 8 + 4 * count + dice.randint(0, 1)
        self.put(upper_word(target, 0, AUIPC), immediate_word(0, link, target, offset, JALR))
        for _ in range(count):
            self.arithmetic()

    def piece(self):
        """A piece without a call."""
        usual = [(40, self.arithmetic), (12, self.load), (12, self.store), (12, self.branch_over), (6, self.loop)]
        usual += [(6, self.pointer), (5, self.same_value), (2, self.upper), (1, self.fence), (2, self.jump_over)]
        usual.append((2, self.jump_register_over))
        self.dice.choices([make for _, make in usual], [weight for weight, _ in usual])[0]()

    def block(self, count):
        """A stretch of so many pieces without a call."""
        boundaries = [self.here]
        for _ in range(count):
            self.piece()
            boundaries.append(self.here)
        self.blocks.append(boundaries)

    def call(self, number):
        """The call with this number, or rarely with one that depends on data."""
        if self.happens(0.04):
            self.load_small(NUMBER, 1)
            self.put(immediate_word(0, NUMBER, NUMBER, number - self.dice.choice([0, 0, 1])))
        else:
            self.put_number(NUMBER, number)
        self.put(ECALL)

    def wild_address(self):
        """An address that is outside guest memory, or at the end of all addresses."""
        return self.dice.choice([0, self.data - 0x100000, 0xFFFFFFFC])

    def read(self, descriptor=None, offset=None, count=None):
        """A read to the data."""
        dice = self.dice
        descriptor = dice.choice([0, 3, 3, 3]) if descriptor is None else descriptor
        self.put_number(10, dice.choice([1, 2, 4, ALL]) if self.happens(0.03) else descriptor)
        if self.happens(0.03):
            self.put_number(11, self.wild_address())
        else:
            self.put(immediate_word(0, 11, DATA, dice.randrange(12) if offset is None else offset))
        if self.happens(0.06):
            self.load_small(12, 3)
        else:
            self.put_number(12, dice.choice([0, 1, 2, 3, 8, ALL]) if count is None else count)
        self.call(READ)

    def write(self):
        """A write of data."""
        dice = self.dice
        self.put_number(10, dice.choice([0, 3, 4, ALL]) if self.happens(0.04) else dice.choice([1, 1, 1, 2]))
        if self.happens(0.04):
            self.put_number(11, self.wild_address())
        elif self.happens(0.06):
            self.load_small(11, 7)
            self.put(register_word(ADD, 11, DATA, 11))
        else:
            self.put(immediate_word(0, 11, DATA, dice.randrange(36)))
        if self.happens(0.1):
            self.load_small(12, dice.choice([1, 3]))
        else:
            self.put_number(12, dice.choice([0, 1, 1, 2, 3, 5]))
        self.call(WRITE)

    def write_state(self):
        """Stores the registers of the pool behind the data and writes all of it, so that little stays unseen."""
        for index, register in enumerate(self.pool):
            self.put(store_word(2, DATA, register, 64 + 4 * index))
        self.put_number(10, 1)
        self.put(immediate_word(0, 11, DATA, 0))
        self.put_number(12, 64 + 4 * len(self.pool))
        self.call(WRITE)

    def store_answer(self):
        """Perhaps stores the answer of a call, so that it can be written."""
        if self.happens(0.5):
            self.put(store_word(self.dice.choice([0, 2]), DATA, 10, self.dice.randrange(32)))

    def set_break(self):
        """A call of brk, around the limits of what it takes."""
        dice, page = self.dice, self.data & ~0xFFF
        if self.happens(0.3):
            self.load(10, dice.randrange(4))
            self.put(upper_word(11, (self.data + 0x2000 >> 12) + 1), register_word(ADD, 10, 11, 10))
        else:
            end = (page & ~0xFFFF) + (1 << 24)
            limits = [page, page + 0x1000, page + 0x1001, end, end + 1]
            self.put_number(10, dice.choice([0, dice.randrange(1 << 32), *limits]))
        self.call(BREAK)
        self.store_answer()

    def other_call(self):
        """A call that there is not."""
        self.put_number(10, self.dice.randrange(8))
        self.put_number(NUMBER, self.dice.choice([0, 1, 57, 62, 65, 92, 95, 213, 215, 222, ALL, 0x80000040]))
        self.put(ECALL)
        self.store_answer()

    def exit(self):
        """An exit with a number, with data or with a register."""
        dice, kind = self.dice, self.dice.random()
        if kind < 0.5:
            self.put_number(10, dice.choice([0, 0, 1, 7, 255, 256, dice.randrange(4096)]))
        elif kind < 0.75:
            self.load(10)
        else:
            self.put(immediate_word(0, 10, self.any_register(), 0))
        self.call(dice.choice([93, 93, 94]))

    def any_call(self):
        """A call of some kind."""
        usual = [(55, self.write), (17, self.read), (12, self.set_break), (8, self.other_call), (8, self.exit)]
        self.dice.choices([make for _, make in usual], [weight for weight, _ in usual])[0]()

    def endless(self):
        """A jump to itself."""
        self.put(jump_word(0, 0))
