"""Random programs whose runs on several secrets go several ways, and pass other bits on each."""
from carriers import LEFT, SHOWN, SMALL_MASKS, Carriers
from forks import BIT
from instructions import ALL
from pieces import DATA, WRITE
from programs import begin_program
from words import ADD, LOAD, XOR, immediate_word, register_word


class Ways(Carriers):
    """A program of pieces that a run comes to by its secret, or as often as that says."""

    spread = 0.7

    def tell(self):
        """Shows some bits of a byte, and perhaps writes them at once."""
        dice, register, place = self.dice, self.set_register(), self.dice.randrange(8)
        self.put(immediate_word(4, register, DATA, dice.randrange(3), LOAD))
        self.put(immediate_word(7, register, register, dice.choice(SMALL_MASKS)))
        self.put(immediate_word(4, register, register, dice.randrange(256)))
        self.show(register)
        if self.happens(0.5):
            self.put_number(10, 1)
            self.put(immediate_word(0, 11, DATA, SHOWN + place))
            self.put_number(12, dice.choice([1, 2, 4]))
            self.call(WRITE)

    def some(self):
        """A few pieces that tell of the secret."""
        for _ in range(self.dice.choice([1, 1, 2])):
            self.dice.choice([self.tell, self.tell, self.tell, self.use_last, self.decide])()

    def fork_ways(self):
        """One of two pieces, by a bit of the secret."""
        begin = self.here
        self.take_bit()
        label = self.put_branch(self.dice.choice([0, 1]), BIT, 0)
        self.some()
        behind = self.put_jump(0)
        self.place(label)
        if self.happens(0.7):
            self.some()
        self.place(behind)
        self.end_stretch(begin)

    def there_and_back(self):
        """A register takes up a byte and gives it back, in a stretch that is often a region: its value is the one
        before, and for the rules it has secret bits. Behind it the register is used."""
        kept, taken = self.dice.sample([register for register in self.pool if register], 2)
        if self.happens(0.6):
            self.put_number(kept, self.dice.randrange(8))
        begin = self.here
        self.put(immediate_word(4, taken, DATA, self.dice.randrange(3), LOAD))
        there, back = self.dice.choice([(XOR, XOR), (ADD, (0x20, 0))])
        self.put(register_word(there, kept, kept, taken), register_word(back, kept, kept, taken))
        if self.happens(0.5):
            self.put(immediate_word(0, taken, 0, 0))
        self.end_stretch(begin)
        label = self.put_branch(self.dice.choice([0, 1]), kept, 0)
        self.some()
        self.place(label)

    def rounds(self):
        """A piece as often as some bits of the secret say."""
        self.put(immediate_word(4, LEFT, DATA, self.dice.randrange(3), LOAD))
        self.put(immediate_word(7, LEFT, LEFT, self.dice.choice([1, 3, 7])))
        begin = self.here
        behind = self.put_branch(0, LEFT, 0)
        self.some()
        self.put(immediate_word(0, LEFT, LEFT, -1))
        self.place(self.put_jump(0), begin)
        self.place(behind)


def ways_program(dice):
    """A program of one to four such pieces, which writes and exits."""
    program = begin_program(dice, Ways)
    program.read(3, 0, ALL)
    for _ in range(dice.randint(1, 4)):
        dice.choice([program.fork_ways, program.fork_ways, program.there_and_back, program.rounds, program.count_bits,
                     program.walk_bytes])()
    if program.happens(0.7):
        dice.choice([program.write, program.show_all])()
    program.exit()
    return program
