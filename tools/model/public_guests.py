"""Random programs that read public bytes beside secret ones, and guests with the answer of `bound --any-public` to
each, worked out by hand."""
from carriers import SHOWN, TAKEN
from cuts import Cut
from hand_made import ANSWER, BUFFER, SECRET, exit_words, found, read_words, trial
from instructions import ALL
from pieces import BRANCH_FORMS, DATA
from program_files import BASE, plain_file
from programs import begin_program
from ways import Ways
from words import LOAD, Writer, immediate_word, store_word
from worked_trial import number_word

PUBLIC, SECRET_BYTE, PUBLIC_BYTE = 0, 6, 7
ANY = "--any-public"


class Guesses(Ways):
    """A program of pieces that look at public and at secret bytes."""

    def guess(self):
        """Compares a byte of one input with one of the other, and tells what it finds."""
        dice, register = self.dice, self.set_register()
        self.put(immediate_word(4, register, DATA, dice.randrange(3), LOAD))
        self.put(immediate_word(4, TAKEN, DATA, 4 + dice.randrange(2), LOAD))
        if self.happens(0.4):
            kept = dice.choice([1, 3, 15])
            self.put(immediate_word(7, register, register, kept), immediate_word(7, TAKEN, TAKEN, kept))
        label = self.put_branch(dice.choice(BRANCH_FORMS), *dice.sample([register, TAKEN], 2))
        self.some()
        self.place(label)

    def echo(self):
        """Shows a public byte."""
        self.put(immediate_word(4, TAKEN, DATA, 4 + self.dice.randrange(3), LOAD))
        self.put(store_word(0, DATA, TAKEN, SHOWN + self.dice.randrange(4)))


def guessing_program(dice):
    """A program that reads secret and public bytes, mostly to places of their own, looks at them and exits."""
    program = begin_program(dice, Guesses)
    place = dice.choice([4, 4, 4, 1, 2])
    reads = [lambda: program.read(3, 0, ALL), lambda: program.read(0, place, dice.choice([1, 2, 4, ALL]))]
    for read in dice.sample(reads, 2):
        read()
    for _ in range(dice.randint(1, 3)):
        dice.choice([program.guess, program.guess, program.guess, program.echo, program.fork_ways, program.rounds,
                     program.tell, program.walk_bytes, program.there_and_back])()
    if program.happens(0.2):
        program.read(0, 5, 1)
        program.guess()
    if program.happens(0.8):
        dice.choice([program.write, program.show_all])()
    program.exit()
    return program


def begin():
    """A guest that has read a secret and a public byte into registers; they are 0 where there is none."""
    writer = Writer(None, BASE, 0)
    writer.put(*read_words(1, SECRET, 0), *read_words(1, PUBLIC, 1))
    writer.put(immediate_word(4, SECRET_BYTE, BUFFER, -1, LOAD), immediate_word(4, PUBLIC_BYTE, BUFFER, 0, LOAD))
    return writer


def finish(writer):
    """Exits with what the answer's register holds; the file."""
    writer.put(*exit_words())
    return plain_file(writer.body())


def guess_words(writer):
    """Exits with 1 where both bytes are equal and else with 0; the address of the decision."""
    writer.put(number_word(ANSWER, 0))
    decision = writer.here
    label = writer.put_branch(1, SECRET_BYTE, PUBLIC_BYTE)
    writer.put(number_word(ANSWER, 1))
    writer.place(label)
    return decision


def met_guest():
    """Decides by a bit of the secret whether the public byte becomes the secret one, and by a bit of it how to exit.
    Behind the first decision both paths have the same state. The file, and the points of both decisions."""
    writer, points = begin(), {}
    for byte, words in ((SECRET_BYTE, [immediate_word(0, PUBLIC_BYTE, SECRET_BYTE, 0)]), (PUBLIC_BYTE, None)):
        writer.put(number_word(ANSWER, 0), immediate_word(7, TAKEN, byte, 1))
        points[0, writer.here, "de"] = [], [(1, 1)]
        label = writer.put_branch(0, TAKEN, 0)
        writer.put(*(words or [number_word(ANSWER, 1)]))
        writer.place(label)
    return finish(writer), points


def over_trial():
    """A public byte that is read over a secret one, without the flag."""
    writer = Writer(None, BASE, 0)
    writer.put(*read_words(1, SECRET, 0), *read_words(1, PUBLIC, 0), immediate_word(4, ANSWER, BUFFER, 0, LOAD))
    return trial("public-over-secret", finish(writer), Cut(1, 0, [], {}), found(1, 1, 1, 0), public=b"\x41")


def public_trials():
    """The trials: a guess, also of a byte that is not there, an echo, public bits that nothing lets cross, three walks
    for four paths, and a public byte that is not any."""
    guess, echo, (met, decisions) = begin(), begin(), met_guest()
    decision = guess_words(guess)
    file, decides = finish(guess), {(0, decision, "de"): ([], [(1, 1)])}
    echo.put(immediate_word(0, ANSWER, PUBLIC_BYTE, 0))
    shown = finish(echo)
    status = {(0, echo.here - 4, "st"): ([], [(1, 255)])}
    short, met_text, typed = "unclear path 00 bits 1 budget 0 needed 1\n", found(1, 4, 2, 1, public=1), b"\x41"
    left = f"unclear path - bits 0 left 0 0x{decision:08x} de mask 0x00000001\n"
    unseen = f"unclear path - bits 0 left 0 0x{echo.here - 4:08x} st mask 0x000000ff\n"
    return [
        trial("public-guess", file, Cut(1, 1, [], decides), found(1, 2, 2, 1, public=1), ANY, public=typed),
        trial("public-guess-of-none", file, Cut(1, 1, [], decides), found(1, 2, 2, 1, public=0), ANY),
        trial("public-guess-nowhere", file, Cut(1, 0, [], {}), left, ANY, public=typed),
        trial("public-guess-short", file, Cut(1, 0, [], decides), short, ANY, public=typed),
        trial("public-echo", shown, Cut(1, 8, [], status), found(1, 1, 256, 8, public=1), ANY, public=typed),
        trial("public-echo-of-none", shown, Cut(1, 8, [], status), found(1, 1, 1, 0, public=0), ANY),
        trial("public-echo-nowhere", shown, Cut(1, 8, [], {}), unseen, ANY, public=typed),
        trial("public-met", met, Cut(1, 2, [], decisions), met_text, "--paths=3", "--rules=2", ANY, public=typed),
        over_trial(),
    ]
