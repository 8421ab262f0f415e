"""The best bound that was found, in words: what it says, what random secrets say beside it, and how to ask again."""
from bound_words import bounded_lines, power_words, unclear_lines
from misleading import of_reads
from parting import Parting
from running import reads_of
from source_lines import Places
from tool import OutOfTime, within, write_text
from verdicts import real_run

LOOKED_TURNS, LOOKED_SECONDS = 200_000, 5


def again_words(search, name):
    """The words that ask again, with the files that are kept beside NAME."""
    way = search.best.way
    if not way.regions:
        return way.bounding.again(f"{name}.cut", search.best.answer)
    words = way.bounding.again(f"{name}.cut", search.best.answer)
    words[words.index("--regions") + 1] = f"{name}.regions"
    return words


def keep_files(search, name):
    """Writes the cut of the best into NAME.cut, and its regions into NAME.regions."""
    write_text(f"{name}.cut", search.best.answer.cut.text())
    if search.best.way.regions:
        write_text(f"{name}.regions", search.best.way.regions)


def beside_lines(search):
    """What is known beside the best bound."""
    best, lines = search.best, reads_lines(search)
    if best.way.trust and best.answer.is_bounded:
        lines += [best.way.trust.covers_words(), *without_lines(search)]
    missing = search.sample.missing(best.answer.patterns) if best.answer.is_bounded else []
    lines.append(search.sample.words(best.outputs()))
    if missing and best.answer.is_of_all():
        lines.append(f"An output of these is not in the list, which is a fault of this program: {missing[0]}")
    elif missing:
        lines.append(f"{len(missing):,} of these are not in the list: their runs break a region, or do not end.")
    return lines


def reads_lines(search):
    """What is to be said of how much of the secret a short run reads."""
    if not search.secrets:
        return []
    try:
        with within(LOOKED_SECONDS):
            run = real_run(search.program.image, search.sample.inputs_of(0)[0], search.known[0], [], LOOKED_TURNS)
    except OutOfTime:
        return []
    return of_reads(*reads_of(run.guest)[1], search.secrets[0]) if run.ending[0] == "exited" else []


def without_lines(search):
    """What is known of all secrets, where the best has regions."""
    other = search.best_of_all
    told = f"one of {power_words(other.outputs())}" if other else None
    return [f"Without regions, of all secrets: the output is {told}." if told else
            "Without regions nothing is known of all secrets."]


def best_lines(search, name):
    """What was found, as lines; its files stand beside NAME."""
    way, answer, again = search.best.way, search.best.answer, again_words(search, name)
    lines, bounding = beside_lines(search), way.bounding
    if answer.is_bounded:
        public = search.inputs.public
        seen = list(search.sample.outputs)
        return bounded_lines(answer, public, bounding.turns, search.measured, again, lines, seen)
    parting = Parting(bounding.task(answer.cut, answer.budget)) if answer.is_waiting() else None
    places = Places(search.inputs.program, search.program)
    return unclear_lines(answer, search.best.walk, search.program, places, again, parting, lines)
