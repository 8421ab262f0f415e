"""Pieces of random programs that carry parts of the secret: to registers, bytes, addresses, branches and outputs."""
from forks import Forks
from instructions import ALL
from pieces import BRANCH_FORMS, DATA, LOAD_FORMS, STORE_FORMS, WRITE
from words import ADD, AND, AUIPC, ECALL, JALR, LOAD, immediate_word, jump_word, register_word, store_word, upper_word

STACK, AGAIN, MASK, POINTER, LEFT, TAKEN = 2, 22, 23, 24, 25, 26
SHOWN, STRETCHES = 32, 4
SMALL_MASKS = (1, 1, 3, 7, 15, 0x55, 0x80, 0xF0, 255)


class Carriers(Forks):
    """A program whose secret goes many ways."""

    spread, outside = 0.7, 0.06

    def part(self):
        """A register becomes a part of some bytes of the data, moved and turned over perhaps."""
        dice, register = self.dice, self.set_register()
        self.put(immediate_word(dice.choice(LOAD_FORMS + (4, 4, 4)), register, DATA, dice.randrange(6), LOAD))
        for _ in range(dice.choice([0, 1, 1, 2])):
            minor = dice.choice([7, 7, 7, 7, 6, 4, 0, 2, 3])
            self.put(immediate_word(minor, register, register, dice.choice(SMALL_MASKS + (-1, -8, 256))))
            if self.happens(0.4):
                kind = dice.choice([(1, 0), (5, 0), (5, 0x400)])
                self.put(immediate_word(kind[0], register, register, dice.randrange(12) | kind[1]))

    def part_for_nothing(self):
        """A part is written to x0, which stays 0 and public."""
        self.put(immediate_word(7, 0, self.any_register(), -1), immediate_word(6, self.set_register(), 0, 5))

    def constant(self):
        """A register becomes public."""
        dice, register = self.dice, self.set_register()
        self.put_number(register, dice.choice([0, 1, 4, 255, 0xFF00, ALL, dice.randrange(1 << 32)]))

    def keep_part(self):
        """Stores part of a register where the secret is, or beside it, or at the stack."""
        dice = self.dice
        if self.happens(0.2):
            self.put(store_word(2, STACK, self.any_register(), 4 * dice.randrange(8)))
        else:
            self.put(store_word(dice.choice(STORE_FORMS + (0, 0)), DATA, self.any_register(), dice.randrange(10)))

    def take_back(self):
        """Loads what was kept at the stack."""
        offset = 4 * self.dice.randrange(8) + self.dice.choice([0, 0, 1])
        self.put(immediate_word(self.dice.choice(LOAD_FORMS), self.any_register(), STACK, offset, LOAD))

    def decide(self):
        """A register becomes one of two numbers by a branch on another."""
        dice, register = self.dice, self.set_register()
        self.put(immediate_word(0, register, 0, dice.randrange(256)))
        label = self.put_branch(dice.choice(BRANCH_FORMS), self.any_register(), dice.choice([0, self.any_register()]))
        self.put(immediate_word(dice.choice([0, 7, 4]), register, dice.choice([0, register]), dice.randrange(256)))
        self.place(label)

    def count_bits(self):
        """Counts the bits of a byte, a stretch that may be a region."""
        counted, taken, count = self.dice.sample([register for register in self.pool if register], 3)
        begin = self.here
        self.put(immediate_word(4, counted, DATA, self.dice.randrange(4), LOAD), immediate_word(0, count, 0, 0))
        top = self.here
        out = self.put_branch(0, counted, 0)
        self.put(immediate_word(7, taken, counted, 1))
        over = self.put_branch(0, taken, 0)
        self.put(immediate_word(0, count, count, 1))
        self.place(over)
        self.put(immediate_word(5, counted, counted, 1))
        self.place(self.put_jump(0), top)
        self.place(out)
        self.end_stretch(begin)
        self.put(immediate_word(7, count, count, self.dice.choice([1, 3, 7])))
        self.show(count)

    def end_stretch(self, begin):
        """Ends a stretch that is often a region."""
        self.blocks += [[begin, self.here]] * STRETCHES

    def show(self, register=None):
        """Stores a register where the last write begins."""
        register = self.any_register() if register is None else register
        offset = SHOWN + self.dice.randrange(8)
        self.put(store_word(self.dice.choice([0, 0, 0, 1, 2]), DATA, register, offset))

    def look_up(self):
        """Adds up what a table says of several bytes, in a stretch that may store the sum."""
        dice, total = self.dice, self.set_register()
        begin = self.here
        self.put(immediate_word(0, POINTER, DATA, 0), immediate_word(0, LEFT, 0, dice.choice([2, 5, 8, 8])))
        self.put(immediate_word(0, total, 0, 0))
        top = self.here
        self.put(immediate_word(4, TAKEN, POINTER, 0, LOAD))
        self.put(immediate_word(7, TAKEN, TAKEN, dice.choice([31, 255, 255])))
        self.put(register_word(ADD, TAKEN, TAKEN, DATA), immediate_word(4, TAKEN, TAKEN, dice.choice([0, 64]), LOAD))
        self.put(immediate_word(1, total, total, dice.choice([0, 1, 4])), register_word(ADD, total, total, TAKEN))
        self.put(immediate_word(0, POINTER, POINTER, 1), immediate_word(0, LEFT, LEFT, -1))
        self.place(self.put_branch(1, LEFT, 0), top)
        if self.happens(0.4):
            self.put(store_word(2, DATA, total, SHOWN))
        self.end_stretch(begin)
        if self.happens(0.6):
            self.put(store_word(2, DATA, total, SHOWN))

    def make_again(self, register, kept, *words):
        """Makes a register a part of a byte several times, by these words at last; only the last is used."""
        self.put(immediate_word(0, AGAIN, 0, self.dice.choice([1, 2, 3])))
        begin = self.here
        self.put(immediate_word(4, register, DATA, self.dice.randrange(4), LOAD))
        self.put(immediate_word(7, register, register, kept), *words)
        self.put(immediate_word(0, AGAIN, AGAIN, -1))
        self.place(self.put_branch(1, AGAIN, 0), begin)

    def use_last(self):
        """Uses once what was made several times: decides by it, stores it, or loads or jumps where it says."""
        register, dice = self.set_register(), self.dice
        self.make_again(register, dice.choice(SMALL_MASKS))
        kind = dice.randrange(4)
        if kind == 0:
            label = self.put_branch(dice.choice([0, 1]), *dice.choice([(register, 0), (0, register)]))
            self.put(store_word(0, DATA, 0, SHOWN))
            self.place(label)
        elif kind == 1:
            self.show(register)
        elif kind == 2:
            self.put(register_word(ADD, register, register, DATA), immediate_word(4, register, register, 1, LOAD))
            self.show(register)
        else:
            self.jump_by_part(register)

    def call_by_last(self):
        """A write of which the number, the descriptor, the address or the count was made several times."""
        dice = self.dice
        chosen = dice.choice([10, 11, 11, 12, 12, 17])
        last = {11: [register_word(ADD, 11, 11, DATA)], 17: [immediate_word(6, 17, 17, 64)]}
        self.make_again(chosen, 1 if chosen in (10, 17) else 3, *last.get(chosen, []))
        for register, number in ((10, 1), (12, dice.randrange(1, 4)), (17, 64)):
            if register != chosen:
                self.put_number(register, number)
        if chosen != 11:
            self.put(immediate_word(0, 11, DATA, SHOWN))
        self.put(ECALL)

    def jump_by_part(self, register=None):
        """A jump to one of two places by a bit, each of which sets a register."""
        dice, target, result = self.dice, 5, self.set_register()
        chosen = self.any_register() if register is None else register
        if self.happens(0.5):
            self.put(immediate_word(7, target, chosen, 9))
        else:
            self.put(immediate_word(7, target, chosen, 1), immediate_word(1, target, target, 3))
        self.put(upper_word(6, 0, AUIPC), register_word(ADD, 6, 6, target), immediate_word(0, 0, 6, 12, JALR))
        self.put(immediate_word(0, result, 0, dice.randrange(64)), jump_word(0, 8))
        self.put(immediate_word(0, result, 0, dice.randrange(64)), immediate_word(0, 0, 0, 0))

    def walk_bytes(self):
        """A loop over bytes that keeps of each what a mask says, which changes from byte to byte."""
        dice = self.dice
        self.put(immediate_word(0, POINTER, DATA, dice.randrange(3)), immediate_word(0, LEFT, 0, dice.randint(1, 6)))
        self.put(immediate_word(0, MASK, 0, dice.choice(SMALL_MASKS)))
        begin = self.here
        self.put(immediate_word(4, TAKEN, POINTER, 0, LOAD))
        self.put(register_word(dice.choice([AND, AND, ADD]), TAKEN, TAKEN, MASK))
        self.put(store_word(0, POINTER, TAKEN, dice.choice([0, 0, 12])))
        if self.happens(0.7):
            self.put(immediate_word(4, MASK, MASK, dice.choice([1, 2, 2, 6, 255])))
        self.put(immediate_word(0, POINTER, POINTER, 1), immediate_word(0, LEFT, LEFT, -1))
        self.place(self.put_branch(1, LEFT, 0), begin)
        self.end_stretch(begin)

    def spoil_code(self):
        """Stores a register into one byte of the word that is next."""
        self.put(upper_word(6, 0, AUIPC), store_word(0, 6, self.any_register(), 8 + self.dice.randrange(4)))
        self.arithmetic()

    def show_all(self):
        """Writes what was shown, or its begin."""
        self.put_number(10, 1)
        self.put(immediate_word(0, 11, DATA, SHOWN))
        self.put_number(12, self.dice.choice([1, 4, 8, 11]))
        self.call(WRITE)

    def piece(self):
        """A piece without a call."""
        usual = [(20, self.part), (14, self.keep_part), (10, super().piece), (8, self.arithmetic), (7, self.decide)]
        usual += [(5, self.pointer), (5, self.count_bits), (5, self.walk_bytes), (4, self.take_back)]
        usual += [(3, self.same_value), (3, self.constant), (2, self.jump_by_part), (8, self.show)]
        usual += [(5, self.look_up), (5, self.use_last), (1, self.part_for_nothing)]
        self.dice.choices([make for _, make in usual], [weight for weight, _ in usual])[0]()
