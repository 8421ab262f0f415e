"""The labels of registers and bytes during a real run: which of their bits may depend on the secret, and the point that
produced them. They follow each turn once it is made, from the values that it passed."""
from cuts import slot_width
from guest import BREAK, EXIT, EXIT_GROUP, READ
from guest import SECRET as SECRET_INPUT
from guest import WRITE
from instructions import ALL, WIDTHS
from passings import CLEAN, IMPLICIT, OUT, SECRET
from rules import loaded_mask, result_mask

ANSWER, NUMBER = 10, 17


class Labels:
    """The labels of a run, which adds its passings as turns are made. A visit is (region, address, slot, value)."""

    def __init__(self, table, passings):
        self.table, self.passings = table, passings
        self.registers, self.bytes, self.at_entry = [CLEAN] * 32, {}, []

    def byte(self, address):
        """The label of a byte."""
        return self.bytes.get(address, CLEAN)

    def set_byte(self, address, label):
        """Labels a byte."""
        if label[0]:
            self.bytes[address] = label
        else:
            self.bytes.pop(address, None)

    def set_register(self, number, label):
        """Labels a register; x0 has no secret bit."""
        if number:
            self.registers[number] = label

    def use(self, visit, number, kind=None):
        """Passes the value of a register with its own mask."""
        label = self.registers[number]
        return self.passings.add(visit[:3], label[0], [label], kind)

    def address(self, instruction, visit, first, value):
        """Passes an address, or the target of JALR, from its first operand and that one's label."""
        mask = result_mask(self.table, "add", (value, first[0]), (instruction.immediate & ALL, 0))
        if instruction.form == "jump_register":
            mask &= ~1
        self.passings.add(visit[:3], mask, [first], IMPLICIT)

    def enter(self):
        """The entry of a region: its labels may come back at the leave."""
        self.at_entry = list(self.registers)

    def leave(self, region, starts, visits):
        """The leave of a region: kept registers have the label of the entry, outputs are secret as a whole."""
        for number in region.keep:
            self.registers[number] = self.at_entry[number]
        visits = iter(visits)
        for number in region.outs:
            self.registers[number] = self.put_out(next(visits), self.registers[number])
        for start, (_, _, length) in zip(starts, region.ranges):
            for address in range(start, start + length):
                self.set_byte(address, self.put_out(next(visits), self.byte(address)))

    def put_out(self, visit, label):
        """Passes an output of a region."""
        return self.passings.add(visit[:3], slot_width(visit[2]), [label], OUT)

    def step(self, instruction, visits, answer):
        """One instruction with its visits; a call has left its answer in register 10."""
        if instruction.form == "call":
            self.call(visits, answer)
        else:
            LABELLED[instruction.form](self, instruction, *visits)

    def clear(self, instruction):
        """LUI, AUIPC and JAL, whose results are public."""
        self.set_register(instruction.destination, CLEAN)

    def fence(self, _):
        """FENCE, which does nothing."""

    def jump_register(self, instruction, first_visit, target_visit):
        """JALR: the target is betrayed."""
        first = self.use(first_visit, instruction.first)
        self.address(instruction, target_visit, first, first_visit[3])
        self.set_register(instruction.destination, CLEAN)

    def branch(self, instruction, first_visit, second_visit, visit):
        """A branch: the decision is betrayed."""
        first, second = self.use(first_visit, instruction.first), self.use(second_visit, instruction.second)
        operands = (first_visit[3], first[0]), (second_visit[3], second[0])
        mask = result_mask(self.table, instruction.name, *operands) & 1
        self.passings.add(visit[:3], mask, [first, second], IMPLICIT)

    def load(self, instruction, first_visit, address_visit, visit):
        """A load: the address is betrayed, and the result has the masks of the bytes."""
        first = self.use(first_visit, instruction.first)
        self.address(instruction, address_visit, first, first_visit[3])
        address = address_visit[3]
        labels = [self.byte(address + index) for index in range(WIDTHS[instruction.name])]
        mask = loaded_mask(instruction.name, [label[0] for label in labels])
        self.set_register(instruction.destination, self.passings.add(visit[:3], mask, labels))

    def store(self, instruction, first_visit, second_visit, address_visit):
        """A store: the address is betrayed, and the bytes have their parts of the value's mask."""
        first, second = self.use(first_visit, instruction.first), self.use(second_visit, instruction.second)
        self.address(instruction, address_visit, first, first_visit[3])
        for index in range(WIDTHS[instruction.name]):
            self.set_byte(address_visit[3] + index, (second[0] >> 8 * index & 255, second[1]))

    def immediate(self, instruction, first_visit, visit):
        """Arithmetic with an immediate, which is public."""
        first = self.use(first_visit, instruction.first)
        operands = (first_visit[3], first[0]), (instruction.immediate & ALL, 0)
        mask = result_mask(self.table, instruction.name, *operands)
        self.set_register(instruction.destination, self.passings.add(visit[:3], mask, [first]))

    def register(self, instruction, first_visit, second_visit, visit):
        """Arithmetic with two registers."""
        first, second = self.use(first_visit, instruction.first), self.use(second_visit, instruction.second)
        operands = (first_visit[3], first[0]), (second_visit[3], second[0])
        mask = result_mask(self.table, instruction.name, *operands)
        self.set_register(instruction.destination, self.passings.add(visit[:3], mask, [first, second]))

    def call(self, visits, answer):
        """ECALL: its number and its arguments are betrayed; its answer is public."""
        self.use(visits[0], NUMBER, IMPLICIT)
        number = visits[0][3]
        if number in (EXIT, EXIT_GROUP):
            self.betray(visits[1], self.registers[ANSWER])
            return
        count = {READ: 3, WRITE: 3, BREAK: 1}.get(number, 0)
        for index, visit in enumerate(visits[1 : 1 + count]):
            self.use(visit, ANSWER + index, IMPLICIT)
        if number in (READ, WRITE):
            self.transfer(number, visits[1][3], visits[2][3], visits[4:], answer)
        self.registers[ANSWER] = CLEAN

    def transfer(self, number, descriptor, address, visits, answer):
        """The bytes of a read or a write at an address."""
        if number == READ and descriptor != SECRET_INPUT:
            for index in range(answer if answer <= ALL >> 1 else 0):
                self.set_byte(address + index, CLEAN)
        for index, visit in enumerate(visits):
            if number == READ:
                self.set_byte(address + index, self.passings.add(visit[:3], 255, (), SECRET))
            else:
                self.betray(visit, self.byte(address + index))

    def betray(self, visit, label):
        """Passes a byte that is written, or the exit status: the low bits of a label are betrayed."""
        self.passings.add(visit[:3], label[0] & 255, [label], IMPLICIT)


LABELLED = {form: getattr(Labels, form) for form in (
    "jump_register", "branch", "load", "store", "immediate", "register", "fence"
)} | {"upper": Labels.clear, "jump": Labels.clear}
