"""What the guests that were made by hand have alike: the words of calls, and the trials with their answers."""
import json

from words import ECALL, immediate_word
from worked_trial import number_word

ANSWER, BUFFER, COUNT, NUMBER = 10, 11, 12, 17
WHERE, SECRET = 0x80, 3


def read_words(count, descriptor=SECRET, offset=None):
    """Reads so many bytes of an input to where the data begin, or so far behind."""
    words = [number_word(ANSWER, descriptor), WHERE << 12 | BUFFER << 7 | 0x37]
    words += [immediate_word(0, BUFFER, BUFFER, offset)] if offset is not None else []
    return [*words, number_word(COUNT, count), number_word(NUMBER, 63), ECALL]


def exit_words():
    """Exits with what the answer's register holds."""
    return [number_word(NUMBER, 93), ECALL]


def found(secret, paths, outputs, bits, stopped=0, regions=0, public=""):
    """The text of a bounded guest."""
    lengths = f"secret {secret} public {public}" if public != "" else f"secret {secret}"
    return f"bounded {lengths} regions {regions} paths {paths} stopped {stopped} outputs {outputs} bits {bits}\n"


def region_text(enter, leave, outs, keep):
    """A file of one region."""
    region = {"id": 1, "enter": f"0x{enter:x}", "leave": f"0x{leave:x}", "outs": outs, "keep": keep}
    return json.dumps({"regions": [region]}).encode()


def trial(name, file, cut, text, *options, public=b"", regions=None):
    """A trial: its name, its files, its words and the answer. The budget is the number of the cut."""
    files = {"program": file, "public": public, "cut": cut.text().encode()} | ({"regions": regions} if regions else {})
    options += () if any(word.startswith("--paths") for word in options) else ("--paths=300",)
    options += ("--regions=regions",) if regions else ()
    return name, files, ["bound", "program", "public", "cut", str(cut.bits), *options], text
