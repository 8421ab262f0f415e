"""Why an exact text of a cut or a region file is refused: the line, a caret below it, and what was expected."""
import json
import re

from cuts import NAMES, SLOTS
from refusals import cut_fault, is_number, is_slot, read_json, regions_fault

ORDER = "points ascend by region, address and slot, in the order " + " ".join(SLOTS) + " x1.. r0.."
MARK = b"\xef\xbb\xbf"


class Fault:
    """What is wrong with a text: the refusal, the number of the line, the line, a column, and what was expected."""

    def __init__(self, refusal, number, line, column, expected):
        self.refusal, self.number, self.line, self.column, self.expected = refusal, number, line, column, expected

    def lines(self, name):
        """The fault as lines."""
        shown = "".join(character if character.isprintable() else "·" for character in self.line)
        place = f"line {self.number}: " if self.number else ""
        head = [f"{name}: {place}{self.refusal}"]
        head += ["    " + shown, "    " + " " * self.column + "^"] if self.number else []
        return head + ["    " + self.expected]


def cut_text_fault(file):
    """The fault of a cut, or None."""
    refusal = cut_fault(file)
    if refusal is None:
        return None
    text = file.decode("latin-1")
    lines = text.split("\n")
    number = {"version": 1}.get(refusal)
    if refusal.startswith(("line ", "order ")):
        number = int(refusal.split()[1])
    elif refusal.startswith("trailing"):
        number = text[: int(refusal.split()[1])].count("\n") + 1
    number = number or len(lines)
    line = lines[number - 1]
    column, expected = expected_in(refusal, number, line, lines)
    return Fault("refused 3 cut " + refusal, number, line, column, expected)


def expected_in(refusal, number, line, lines):
    """The column of a fault and what was expected there."""
    if line.encode("latin-1").startswith(MARK):
        return 0, "the file begins with a byte order mark; save it as UTF-8 without one"
    if line.endswith("\r"):
        return len(line) - 1, "the line ends with CR and LF; a line ends with LF alone"
    if refusal == "truncated":
        if line:
            return len(line), "the last line has no line feed" + ("" if line == "end" else ", and `end` is missing")
        return 0, "a line `end` is expected"
    if refusal.startswith("trailing"):
        return 0, "nothing may follow the line `end`"
    if refusal.startswith("order"):
        return 0, f"this line does not exceed the one before it: {ORDER}"
    if number == 1:
        return 0, "`flowcheck-cut 1` or `flowcheck-cut 2` is expected"
    if number <= 3:
        name, most = (("secret", 65_536), ("bits", 0xFFFFFFFF))[number - 2]
        return number_line(line, name, 0, most)
    return item_line(line, "point" in [earlier.split(" ")[0] for earlier in lines[3 : number - 1]], lines[0][-1])


def spaces(line):
    """The column of a space that is too many or of a tab, or None."""
    match = re.search(r"  |\t|^ | $", line)
    if match:
        expected = "words stand exactly one space apart, and no line begins or ends with one"
        return match.start() + (1 if match[0] == "  " else 0), expected
    return None


def number_line(line, name, least, most):
    """What is wrong with a line of a word and a number."""
    fault = spaces(line)
    if fault:
        return fault
    words = line.split(" ")
    if words[0] != name:
        return 0, f"`{name}` and a number are expected"
    if len(words) != 2:
        return len(line) if len(words) < 2 else len(" ".join(words[:2])), "one number is expected"
    return len(name) + 1, f"a number from {least} to {most} in decimal without zeros in front is expected"


def item_line(line, is_behind_point, version):
    """What is wrong with a line behind the third."""
    words = line.split(" ")
    fault = spaces(line)
    if fault:
        return fault
    if words[0] == "skip":
        if is_behind_point:
            return 0, "`skip` lines stand before the points"
        return number_line(line, "skip", 1, 65_535)
    if words[0] != "point":
        return 0, "`skip N`, `point ...` or `end` is expected"
    columns = [sum(len(word) + 1 for word in words[:index]) for index in range(len(words) + 1)]
    for index, expected in enumerate_faults(words, version):
        return min(columns[index], len(line)), expected
    return 0, "a point is expected: point REGION 0xADDRESS SLOT COUNT*0xMASK ... rest 0xMASK"


def enumerate_faults(words, version):
    """The faults of the words of a point line, as (place, what was expected)."""
    words = words + [""] * (4 - len(words))
    if not is_number(words[1], 0, 65_535):
        yield 1, "a region is expected: 0 outside regions, else its number up to 65535"
    if not re.fullmatch(r"0x[0-9a-f]{8}", words[2]):
        yield 2, hexadecimal(words[2], "an address")
    if not is_slot(words[3]):
        yield 3, "a slot is expected: " + " ".join(SLOTS) + ", x1 to x31 or r0 to r63" + register_hint(words[3])
    if "rest" not in words[4:]:
        yield len(words), "`rest` and a mask are expected"
        return
    rest = words.index("rest", 4)
    behind = words[rest + 1 :]
    yield from run_faults(words, 4, rest)
    if version == "1":
        if len(behind) != 1:
            yield min(rest + 1 + bool(behind), len(words)), "one mask is expected behind `rest`"
        elif not re.fullmatch(r"0x[0-9a-f]{8}", behind[0]):
            yield rest + 1, hexadecimal(behind[0], "a mask")
    elif not behind:
        yield len(words), "COUNT*0xMASK is expected behind `rest`"
    yield from run_faults(words, rest + 1, len(words)) if version == "2" else ()


def run_faults(words, begin, end):
    """The faults of runs of masks."""
    before = None
    for index in range(begin, end):
        count, star, mask = words[index].partition("*")
        if not star or not is_number(count, 1, 0xFFFFFFFF):
            yield index, "COUNT*0xMASK is expected, as 3*0x000000ff, with a count from 1 on"
        elif not re.fullmatch(r"0x[0-9a-f]{8}", mask):
            yield index, hexadecimal(mask, "a mask")
        elif mask == before:
            yield index, "neighbouring runs have different masks: add their counts"
        before = mask


def hexadecimal(word, what):
    """What is wrong with a word that is to be an address or a mask."""
    if re.fullmatch(r"0[xX][0-9a-fA-F]{8}", word):
        return f"{what} has lower case letters: {word.lower()}"
    if re.fullmatch(r"0[xX][0-9a-fA-F]{1,7}", word):
        return f"{what} has exactly eight digits: 0x{int(word, 16):08x}"
    return f"{what} is expected: 0x and eight hexadecimal digits in lower case"


def register_hint(word):
    """The slot of a register that is named as in C."""
    return f"; {word} is x{NAMES[word]} where a region puts it out" if word in NAMES else ""


def regions_text_fault(file):
    """The fault of a region file, or None."""
    refusal = regions_fault(file)
    if refusal is None:
        return None
    head = "refused 3 regions " + refusal
    if refusal == "json":
        return json_fault(head, file)
    expected = {
        "shape": "this region is not as the guide says" + shape_hint(file, refusal),
        "same-address": "a region is left elsewhere than where it is entered",
        "register-twice": "a register stands once in outs and keep together",
        "enter-twice": "an earlier region is entered at the same address",
        "too-many": "there are at most 256 regions",
    }[refusal.split(" ")[0]]
    return Fault(head, 0, "", 0, expected)


def json_fault(head, file):
    """Where a text stops being JSON."""
    if file.startswith(MARK):
        return Fault(head, 1, "", 0, "the file begins with a byte order mark; save it as UTF-8 without one")
    try:
        text = file.decode()
        json.loads(text)
    except UnicodeDecodeError:
        return Fault(head, 0, "", 0, "the file is not UTF-8")
    except json.JSONDecodeError as fault:
        return Fault(head, fault.lineno, text.split("\n")[fault.lineno - 1], fault.colno - 1, fault.msg)
    return Fault(head, 0, "", 0, "a number is too large, or lists are nested too deep")


def shape_hint(file, refusal):
    """What in a region of a wrong shape stands out."""
    number = int(refusal.split(" ")[1])
    if number == 0:
        return ': {"regions": [...]} is expected, with no other key'
    item = read_json(file)["regions"][number - 1]
    if not isinstance(item, dict):
        return ": an object is expected"
    missing = [key for key in ("id", "enter", "leave") if key not in item]
    strange = [key for key in item if key not in ("id", "enter", "leave", "outs", "keep", "ranges")]
    if missing or strange:
        return ": " + "; ".join([f"{key} is missing" for key in missing] + [f"{key} is no key" for key in strange])
    for key in ("enter", "leave"):
        if not re.fullmatch(r"0x[0-9a-fA-F]{1,8}", str(item[key])) or int(item[key], 16) % 4:
            return f': {key} is an address as "0x10018", a multiple of 4'
    for key in ("outs", "keep"):
        names = item.get(key, [])
        wrong = [name for name in names if name not in NAMES] if isinstance(names, list) else [key]
        if wrong:
            return f": {wrong[0]} in {key} is no register"
    return ": its id may stand twice, or a range is not as it should be"

