"""What exact formats take in silence and nobody means: the findings in a cut and in a region file."""
from code_graph import CodeGraph
from cuts import slot_width
from guest import MEMORY_SIZE, shown
from instruction_text import NAMES as REGISTERS
from instruction_text import instruction_text
from region_finding import Calls
from tool import counted

SLOTS_OF = {
    "upper": [],
    "jump": [],
    "fence": [],
    "breakpoint": [],
    "jump_register": ["u1", "ad"],
    "branch": ["u1", "u2", "de"],
    "load": ["u1", "ad", "rs"],
    "store": ["u1", "u2", "ad"],
    "immediate": ["u1", "rs"],
    "register": ["u1", "u2", "rs"],
    "call": ["nr", "a0", "a1", "a2", "in", "ou", "st"],
}


class Lint:
    """The findings of a cut and of a region list, None where no region file was named."""

    def __init__(self, program, cut, regions):
        self.program, self.cut, self.regions, self.findings = program, cut, regions, []
        self.by_number = {region.number: region for region in regions or []}
        self.lone_skips = [number for number in cut.skip if number not in self.by_number]
        self.strange = [point for point in cut.points if not self.is_place(point)]
        self.calls, self.lost = Calls(program), 0

    def find(self, line, text):
        """Adds a finding."""
        self.findings.append(f"{line}: {text}")

    def all(self):
        """All findings."""
        for number in self.lone_skips:
            self.find(f"skip {number}", "no region has this number" + self.lacking())
        for point, (runs, rest) in self.cut.points.items():
            line = f"point {point[0]} {shown(point[1])} {point[2]}"
            self.look_at_point(line, point)
            for mask in sorted({mask for _, mask in runs + rest}):
                if mask & ~slot_width(point[2]):
                    width = shown(slot_width(point[2]))
                    self.find(line, f"mask {shown(mask)} has bits beyond the slot's width {width}, which never cross")
            if not any(mask for _, mask in runs + rest):
                self.find(line, "no bit ever crosses here")
        if 2 * len(self.strange) > len(self.cut.points):
            self.find("the cut", self.strange_words())
        for region in self.regions or []:
            self.look_at_region(region)
        if 2 * self.lost > len(self.by_number):
            of_all = f"{self.lost} of {counted(len(self.by_number), 'region')}"
            self.find("the regions", f"no code leads to the begin or the end of {of_all}; it is the region file of "
                                     "another program, or of another build")
        return self.findings

    def is_place(self, point):
        """Whether a point is a place of the program, whatever the regions are."""
        _, address, slot = point
        if not self.program.is_code(address):
            return False
        instruction = self.program.instruction(address)
        is_output = slot[0] in "xr" and slot != "rs"
        return is_output or slot in (SLOTS_OF[instruction.form] if instruction else [])

    def strange_words(self):
        """How many points are no places of the program."""
        return (f"no place of this program is at {len(self.strange)} of its {counted(len(self.cut.points), 'point')}; "
                "it is the cut of another program, or of another build")

    def lacking(self):
        """A hint where no region file was named."""
        return "" if self.regions is not None else "; no region file was named"

    def look_at_point(self, line, point):
        """Looks at the place of a point."""
        number, address, slot = point
        if number and number not in self.by_number:
            self.find(line, f"no region has the number {number}" + self.lacking())
            return
        if slot[0] in "xr" and slot != "rs":
            self.look_at_output(line, number, address, slot)
            return
        if number in self.cut.skip:
            self.find(line, f"region {number} is skipped, so nothing inside it is ever passed")
        if address % 4 or not self.program.is_code(address):
            self.find(line, "there is no instruction at this address" + self.near(address))
            return
        instruction = self.program.instruction(address)
        slots = SLOTS_OF[instruction.form] if instruction else []
        if slot not in slots:
            text = instruction_text(instruction, address)
            self.find(line, f"{text} passes no {slot}" + self.meant(slot, number, address, slots))

    def near(self, address):
        """A hint for an address that is outside of the code."""
        if address % 4:
            return f"; addresses are multiples of 4, as {shown(address & ~3)}"
        spans = ", ".join(f"{shown(begin)} to {shown(end - 1)}" for begin, end in self.program.code)
        return f"; the code is {spans}"

    def meant(self, slot, number, address, slots):
        """What may have been meant by a slot."""
        leaves = [region for region in self.by_number.values() if region.leave == address]
        if slot in ("a0", "a1", "a2") and leaves:
            register = f"x{10 + int(slot[1])}"
            return f"; {slot} is an argument of a call: register {slot} as an output of region {leaves[0].number} is " \
                f"`point {leaves[0].number} {shown(address)} {register}`"
        if slot in ("a0", "a1", "a2"):
            return f"; {slot} is an argument of a call, and no register"
        return f"; it passes {' '.join(slots)}" if slots else "; it passes nothing"

    def look_at_output(self, line, number, address, slot):
        """Looks at an output point of a region."""
        if not number:
            self.find(line, f"{slot} is an output of a region, and region 0 is none")
            return
        region, index = self.by_number[number], int(slot[1:])
        if address != region.leave:
            self.find(line, f"outputs of region {number} pass at its leave address {shown(region.leave)}")
        if slot[0] == "x" and index not in region.outs:
            self.find(line, f"x{index} is not among the outs of region {number}")
        if slot[0] == "r" and index >= len(region.ranges):
            self.find(line, f"region {number} has {len(region.ranges)} ranges, counted from r0")

    def look_at_region(self, region):
        """Looks at a region."""
        line = f"region {region.number}"
        for word, address in (("enter", region.enter), ("leave", region.leave)):
            if not self.program.is_code(address):
                self.find(line, f"there is no instruction at its {word} address {shown(address)}" + self.near(address))
        if not self.program.is_code(region.enter) or not self.program.is_code(region.leave):
            self.lost += 1
            return
        before, entered = self.program.instruction(region.enter - 4), self.program.instruction(region.enter)
        if not self.is_reached(region.enter, before):
            self.find(line, f"no instruction leads to its enter address {shown(region.enter)}")
            self.lost += 1
        self.look_at_writes(line, region)
        is_pair = entered and entered.name == "auipc" and entered.destination == 1
        if is_pair and region.leave == region.enter + 4:
            self.find(line, f"it has the first half of a call alone; enter at {shown(region.enter + 4)}, the jalr")
        for index, (base, offset, length) in enumerate(region.ranges):
            first, last = self.program.image.base, self.program.image.base + MEMORY_SIZE
            if base is None and not first <= offset <= offset + length <= last:
                self.find(line, f"range {index} is outside guest memory, {shown(first)} to {shown(last - 1)}")

    def look_at_writes(self, line, region):
        """Looks for registers that the code inside may write and that the region does not declare."""
        function = self.program.function_at(region.enter)
        if function is None:
            return
        if region.leave == region.enter + 4:
            inside = {region.enter}
        elif function.holds(region.leave):
            inside = CodeGraph(self.program, function).inside(region.enter, region.leave)
        else:
            return
        missing = sorted(self.calls.written(inside) - {*region.outs, *region.keep})
        if missing:
            names = " ".join(REGISTERS[number] for number in missing)
            self.find(line, f"its code may write {names}, of which neither outs nor keep says anything")

    def is_reached(self, address, before):
        """Whether an instruction falls through, jumps or branches to an address, or it is the entry. Jumps to what a
        register holds are passed over, unless a function begins there."""
        if address == self.program.image.entry or address in self.program.starts:
            return True
        falls_through = before and not (before.form in ("jump", "jump_register") and before.destination == 0)
        if falls_through and before.form != "breakpoint":
            return True
        for place in self.program.addresses():
            instruction = self.program.instruction(place)
            if instruction and instruction.form in ("jump", "branch") and place + instruction.immediate == address:
                return True
        return False
