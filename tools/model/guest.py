"""A guest with regions, one turn at a time.

A turn is a coroutine: at each visit it yields (region, address, slot, value), and it is sent the value that goes on.
The real run sends each value back as it is; the replay puts crossing bits in the place of those under the mask."""
import struct

from instructions import ALL, WIDTHS, compute, decode, is_taken, sign_extended

MEMORY_SIZE = 1 << 24
MOST_OUTPUT = 1 << 20
READ, WRITE, EXIT, EXIT_GROUP, BREAK = 63, 64, 93, 94, 214
PUBLIC, SECRET = 0, 3
NO_DESCRIPTOR, NO_ADDRESS, NO_CALL = -9, -14, -38


class GuestFault(Exception):
    """The guest is stopped; the text names the fault."""


class RegionBreak(Exception):
    """The real run breaks the declaration of a region; the text is that of the verdict."""


class ReplayStop(Exception):
    """The replay cannot go on; the text is that of the verdict."""


class GuestExit(Exception):
    """The guest has exited with a status."""

    def __init__(self, status):
        super().__init__(status)
        self.status = status


def shown(word):
    """A word as verdicts and cuts show it."""
    return f"0x{word:08x}"


class Image:
    """What a well-formed program file says: base, entry, the highest end of a load, and the bytes of the loads."""

    def __init__(self, file):
        self.entry, place = struct.unpack_from("<II", file, 24)
        size, count = struct.unpack_from("<HH", file, 42)
        loads = []
        for index in range(count):
            fields = struct.unpack_from("<8I", file, place + size * index)
            kind, offset, address, _, file_size, memory_size, _, _ = fields
            if kind == 1 and memory_size:
                loads.append((address, memory_size, file[offset : offset + file_size]))
        self.base = min(address for address, _, _ in loads) & ~0xFFF
        self.top = max(address + length for address, length, _ in loads)
        self.memory = {}
        for address, _, data in loads:
            self.memory.update((address + index, byte) for index, byte in enumerate(data))


class Region:
    """A region: its number, its two addresses, and what it declares. A range is (base or None, offset, length)."""

    def __init__(self, number, enter, leave, outs=(), keep=(), ranges=()):
        self.number, self.enter, self.leave = number, enter, leave
        self.outs, self.keep, self.ranges = sorted(outs), sorted(keep), list(ranges)


class Guest:
    """A guest's state. `RealGuest` and `ReplayGuest` say what the two runs do differently with regions."""

    def __init__(self, image, public, secret, regions):
        self.base, self.end = image.base, image.base + MEMORY_SIZE
        self.memory = dict(image.memory)
        self.registers = [0] * 32
        self.registers[2] = self.end - 64
        self.pc = image.entry
        self.first_break = (image.top + 0xFFF) & ~0xFFF
        self.current_break = self.first_break
        self.inputs = {PUBLIC: public, SECRET: secret}
        self.consumed = {PUBLIC: 0, SECRET: 0}
        self.output = bytearray()
        self.by_enter = {region.enter: region for region in regions}
        self.entered = None
        self.starts, self.at_entry = [], []

    def is_inside(self, address, length):
        """Whether so many bytes are inside guest memory."""
        return self.base <= address and address + length <= self.end

    def byte(self, address):
        """The byte at an address inside guest memory."""
        return self.memory.get(address, 0)

    def word(self, address, width):
        """The number that so many bytes are, the lowest first."""
        return sum(self.byte(address + index) << 8 * index for index in range(width))

    def kind(self):
        """What the next turn is: a leave, an entry or a step."""
        if self.entered is not None:
            return "leave" if self.pc == self.entered.leave else "step"
        return "enter" if self.pc in self.by_enter else "step"

    def turn(self, is_skipped=False):
        """The next turn; an entry of a region that is skipped goes on behind the region."""
        kind = self.kind()
        if kind == "leave":
            yield from self.leave()
        elif kind == "enter" and is_skipped:
            yield from self.skip()
        elif kind == "enter":
            self.enter()
        else:
            yield from self.step()

    def starts_of(self, region):
        """The first addresses of a region's ranges, all of which must be inside guest memory."""
        starts = []
        for index, (base, offset, length) in enumerate(region.ranges):
            start = ((self.registers[base] if base else 0) + offset) & ALL
            if not self.is_inside(start, length):
                self.stop_outside(f"region {region.number} range {index} outside")
            starts.append(start)
        return starts

    def enter(self):
        """Enters the region of the program counter."""
        region = self.by_enter[self.pc]
        self.starts = self.starts_of(region)
        self.entered, self.at_entry = region, list(self.registers)

    def leave(self):
        """Leaves the entered region: kept registers first, then the output points."""
        region = self.entered
        self.settle_kept(region)
        self.entered = None
        yield from self.pass_outputs(region, self.starts)

    def skip(self):
        """Goes on behind a region without running it: each output is 0 and passes its point."""
        region = self.by_enter[self.pc]
        starts = self.starts_of(region)
        for number in region.outs:
            self.registers[number] = 0
        for start, (_, _, length) in zip(starts, region.ranges):
            self.memory.update((address, 0) for address in range(start, start + length))
        yield from self.pass_outputs(region, starts)
        self.pc = region.leave

    def pass_outputs(self, region, starts):
        """Passes the output points: registers ascending, then the bytes of each range."""
        for number in region.outs:
            self.registers[number] = yield (region.number, region.leave, f"x{number}", self.registers[number])
        for index, (_, _, length) in enumerate(region.ranges):
            for address in range(starts[index], starts[index] + length):
                self.memory[address] = yield (region.number, region.leave, f"r{index}", self.byte(address))

    def visit(self, slot, value):
        """What is yielded at a point of the instruction at the program counter."""
        return (self.entered.number if self.entered else 0, self.pc, slot, value)

    def step(self):
        """One instruction; each form is a method of its own."""
        if not self.is_inside(self.pc, 4):
            raise GuestFault(f"fetch-outside {shown(self.pc)}")
        word = self.word(self.pc, 4)
        instruction = decode(word)
        if instruction is None:
            raise GuestFault(f"illegal {shown(self.pc)} word {shown(word)}")
        self.pc = yield from FORMS[instruction.form](self, instruction)

    def following(self):
        """The address behind the instruction."""
        return (self.pc + 4) & ALL

    def aligned(self, target):
        """The target of a jump, which must be a multiple of 4."""
        if target % 4:
            raise GuestFault(f"fetch-unaligned {shown(self.pc)}")
        return target

    def write_register(self, number, value):
        """Writes a register, as the entered region must have declared; x0 stays 0."""
        if number:
            self.declare_register(number)
            self.registers[number] = value

    def upper(self, instruction):
        """LUI and AUIPC, which pass nothing."""
        yield from ()
        base = self.pc if instruction.name == "auipc" else 0
        self.write_register(instruction.destination, (base + instruction.immediate) & ALL)
        return self.following()

    def fence(self, _):
        """FENCE, which passes nothing and does nothing."""
        yield from ()
        return self.following()

    def breakpoint(self, _):
        """EBREAK, which stops the guest."""
        yield from ()
        raise GuestFault(f"breakpoint {shown(self.pc)}")

    def jump(self, instruction):
        """JAL, which passes nothing."""
        yield from ()
        target = self.aligned((self.pc + instruction.immediate) & ALL)
        self.write_register(instruction.destination, self.following())
        return target

    def jump_register(self, instruction):
        """JALR: its register and its target pass, bit 0 of which is cleared before."""
        first = yield self.visit("u1", self.registers[instruction.first])
        target = yield self.visit("ad", (first + instruction.immediate) & ALL & ~1)
        self.aligned(target)
        self.write_register(instruction.destination, self.following())
        return target

    def branch(self, instruction):
        """A branch: both registers and the decision pass."""
        first = yield self.visit("u1", self.registers[instruction.first])
        second = yield self.visit("u2", self.registers[instruction.second])
        decision = yield self.visit("de", is_taken(instruction.name, first, second))
        if decision:
            return self.aligned((self.pc + instruction.immediate) & ALL)
        return self.following()

    def load(self, instruction):
        """A load: the register, the address and the extended result pass."""
        first = yield self.visit("u1", self.registers[instruction.first])
        address = yield self.visit("ad", (first + instruction.immediate) & ALL)
        width = WIDTHS[instruction.name]
        if not self.is_inside(address, width):
            raise GuestFault(f"load-outside {shown(self.pc)} address {shown(address)}")
        value = self.word(address, width)
        if instruction.name in ("lb", "lh"):
            value = sign_extended(value, 8 * width) & ALL
        result = yield self.visit("rs", value)
        self.write_register(instruction.destination, result)
        return self.following()

    def store(self, instruction):
        """A store: both registers and then the address pass."""
        first = yield self.visit("u1", self.registers[instruction.first])
        second = yield self.visit("u2", self.registers[instruction.second])
        address = yield self.visit("ad", (first + instruction.immediate) & ALL)
        return self.write_word(address, second, WIDTHS[instruction.name])

    def write_word(self, address, value, width):
        """Writes the lowest bytes of a value, as the entered region must have declared; the address of what is next."""
        if not self.is_inside(address, width):
            raise GuestFault(f"store-outside {shown(self.pc)} address {shown(address)}")
        self.declare_bytes(address, width)
        for index in range(width):
            self.memory[address + index] = value >> 8 * index & 255
        return self.following()

    def immediate(self, instruction):
        """Arithmetic with an immediate: the register and the result pass."""
        first = yield self.visit("u1", self.registers[instruction.first])
        result = yield self.visit("rs", compute(instruction.name, first, instruction.immediate & ALL))
        self.write_register(instruction.destination, result)
        return self.following()

    def register(self, instruction):
        """Arithmetic with two registers: both and the result pass."""
        first = yield self.visit("u1", self.registers[instruction.first])
        second = yield self.visit("u2", self.registers[instruction.second])
        result = yield self.visit("rs", compute(instruction.name, first, second))
        self.write_register(instruction.destination, result)
        return self.following()

    def call(self, _):
        """ECALL: the number passes, then the arguments that the call uses."""
        self.declare_call()
        number = yield self.visit("nr", self.registers[17])
        if number in (EXIT, EXIT_GROUP):
            raise GuestExit((yield self.visit("st", self.registers[10] & 255)))
        answer = NO_CALL
        if number == BREAK:
            request = yield self.visit("a0", self.registers[10])
            if self.first_break <= request <= self.end:
                self.current_break = request
            answer = self.current_break
        elif number in (READ, WRITE):
            arguments = []
            for index in range(3):
                arguments.append((yield self.visit(f"a{index}", self.registers[10 + index])))
            answer = yield from (self.read if number == READ else self.write)(*arguments)
        self.registers[10] = answer & ALL
        return self.following()

    def read(self, descriptor, address, most):
        """The next bytes of an input; those of the secret pass."""
        if descriptor not in (PUBLIC, SECRET):
            return NO_DESCRIPTOR
        data, begin = self.inputs[descriptor], self.consumed[descriptor]
        count = min(most, len(data) - begin)
        if count and not self.is_inside(address, count):
            return NO_ADDRESS
        for index in range(count):
            byte = data[begin + index]
            self.memory[address + index] = (yield self.visit("in", byte)) if descriptor == SECRET else byte
        self.consumed[descriptor] += count
        return count

    def write(self, descriptor, address, count):
        """The bytes of a write, which pass."""
        if descriptor not in (1, 2):
            return NO_DESCRIPTOR
        if count and not self.is_inside(address, count):
            return NO_ADDRESS
        if len(self.output) + count > MOST_OUTPUT:
            raise GuestFault(f"output-limit {shown(self.pc)}")
        for index in range(count):
            self.output.append((yield self.visit("ou", self.byte(address + index))))
        return count


FORMS = {form: getattr(Guest, form) for form in (
    "upper", "jump", "jump_register", "branch", "load", "store", "immediate", "register", "fence", "call", "breakpoint"
)}


class RealGuest(Guest):
    """The guest of the real run, which keeps what its regions declare or is stopped by a break."""

    def stop_outside(self, text):
        """A range of the region is not inside guest memory."""
        raise RegionBreak(text)

    def settle_kept(self, region):
        """Every kept register must be what it was at the entry; the lowest that is not is named."""
        for number in region.keep:
            before, after = self.at_entry[number], self.registers[number]
            if before != after:
                text = f"keep x{number} before {shown(before)} after {shown(after)}"
                raise RegionBreak(f"region {region.number} {text}")

    def declare_register(self, number):
        """A register that is written inside a region must be declared."""
        region = self.entered
        if region and number not in region.outs and number not in region.keep:
            raise RegionBreak(f"region {region.number} undeclared x{number} at {shown(self.pc)}")

    def declare_bytes(self, address, width):
        """The bytes that are written inside a region must be declared; the lowest that is not is named."""
        region = self.entered
        if region is None:
            return
        spans = [(start, start + length) for start, (_, _, length) in zip(self.starts, region.ranges)]
        for byte in range(address, address + width):
            if not any(start <= byte < end for start, end in spans):
                raise RegionBreak(f"region {region.number} undeclared {shown(byte)} at {shown(self.pc)}")

    def declare_call(self):
        """No call may be made inside a region."""
        if self.entered:
            raise RegionBreak(f"region {self.entered.number} call at {shown(self.pc)}")


class ReplayGuest(Guest):
    """The guest of the replay, which may do inside a region what it likes: kept registers are given back."""

    def stop_outside(self, text):
        """A range of the region is not inside guest memory."""
        raise ReplayStop(text)

    def settle_kept(self, region):
        """Every kept register gets its value at the entry back."""
        for number in region.keep:
            self.registers[number] = self.at_entry[number]

    def declare_register(self, number):
        """Any register may be written."""

    def declare_bytes(self, address, width):
        """Any byte may be written."""

    def declare_call(self):
        """A call may be made."""
