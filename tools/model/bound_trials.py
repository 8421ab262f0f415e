"""Random trials of `bound`: the files and the words; a seed alone determines them."""
import dataclasses
import random

from answers import USUAL_PATHS, read_words
from bounds import Bounds, Task
from compare_taints import spoilt
from cuts import Cut, point_order, read_cut, read_regions
from guest import Image
from manys import Many
from measures import Measured, Refused
from met_guests import loop_trial
from programs import random_bytes
from public_guests import guessing_program
from trials import random_guest, random_trial, spelled, usual_options
from verdicts import MOST_BUDGET, USUAL_TURNS
from ways import ways_program

ROUNDS, SOME_PATHS, SOME_TURNS = 12, (3, 40, 64, 128, 128, 256, 256), (300, 1000, 1000, 2000)
FEW_TURNS, FEW_PATHS = (100, 200, 200, 300), (3, 40, 64, 128, 128)


def task_of(files, words):
    """What the words of a `bound` ask for."""
    _, plain, options = read_words(words)
    regions = read_regions(files[options["--regions"]]) if "--regions" in options else []
    table, turns, paths = (int(options.get(*pair)) for pair in (
        ("--rules", 1), ("--turns", USUAL_TURNS), ("--paths", USUAL_PATHS)
    ))
    flags = "--any-public" in options, "--hold" in options
    cut, limits = read_cut(files[plain[2]]), (int(plain[3]), turns, paths, *flags)
    return Task(Image(files[plain[0]]), files[plain[1]], regions, cut, table, *limits)


def measured_cut(dice, image, public, secrets, regions, table, limit):
    """The cut of one secret or of several; no point where nothing is measured."""
    alike = [secret for secret in secrets if len(secret) == len(secrets[0])]
    try:
        if dice.random() < 0.4:
            return Many(image, public, alike, regions, table, limit).cut()
        cut = Measured(image, public, secrets[0], regions, table, limit).cut()
        return cut if dice.random() < 0.8 else cut.folded()
    except Refused:
        skip = [region.number for region in regions if dice.random() < 0.5]
        return Cut(len(secrets[0]), 0, skip)


def mended(task):
    """The cut with the points at which walks are unclear, as far as some rounds find them."""
    for _ in range(ROUNDS):
        words = (Bounds(task).unclear or "").split()
        if words[4:5] != ["left"]:
            break
        point, mask = (int(words[5]), int(words[6], 16), words[7]), int(words[9], 16)
        listed = 0
        for _, other in sum(task.cut.points.get(point, ([], [])), []):
            listed |= other
        task.cut.points[point] = [], [(1, mask | listed)]
    return task.cut


def made_guest(dice, table, turns, is_any_public):
    """The program, the public input and a measured cut of a guest, with its regions and its limit of turns."""
    make = ways_program if dice.random() < 0.5 else None
    make = guessing_program if is_any_public and dice.random() < 0.75 else make
    lengths = [1] if is_any_public and dice.random() < 0.5 else None
    _, program, parts, regions, limit, _ = random_guest(dice, dice.random() < 0.75, make, lengths)
    image, public, secrets = parts
    regions, limit = regions if dice.random() < 0.5 else [], min(turns, limit)
    if make is guessing_program and dice.random() < 0.8:
        public = random_bytes(dice, dice.choice([1, 1, 2, 3, 4]))
    return program, public, measured_cut(dice, image, public, secrets, regions, table, limit), regions, limit


def checked_guest(dice, seed, turns):
    """The same of a trial of `check`, with its own cut; and the files that it has."""
    files, _ = random_trial(dice.randrange(1 << 40), seed % 2)
    given = {name: files[name] for name in ("regions",) if name in files}
    regions = read_regions(files["regions"]) if given else []
    return (files["program"], files["public"], read_cut(files["cut"]), regions, turns), given


@dataclasses.dataclass(frozen=True)
class Wanted:
    """Which trials are wanted: by some tables of the mask rules, of any public input, of guests with loops alone, or
    with another limit of walks."""

    tables: tuple = (1, 2, 3)
    is_any_public: bool = False
    is_loop: bool = False
    paths: int = 0


def bound_trial(seed, wanted=Wanted()):
    """The files of a trial, and the words of its `bound`."""
    is_any_public = wanted.is_any_public
    dice = random.Random(f"bound {'of any public ' if is_any_public else ''}{seed}")
    some_turns, some_paths = (FEW_TURNS, FEW_PATHS) if is_any_public else (SOME_TURNS, SOME_PATHS)
    table, turns, paths = dice.choice(wanted.tables), dice.choice(some_turns), wanted.paths or dice.choice(some_paths)
    if dice.random() < (0.15 if is_any_public else 0.3) or wanted.is_loop:
        return loop_trial(dice, turns, paths, table, is_any_public)
    if dice.random() < 0.25:
        (program, public, cut, regions, limit), given = checked_guest(dice, seed, turns)
    else:
        program, public, cut, regions, limit = made_guest(dice, table, turns, is_any_public)
        given, _ = usual_options(dice, regions, limit)
    if dice.random() < (0.8 if is_any_public else 0.5):
        cut = mended(Task(Image(program), public, regions, cut, table, MOST_BUDGET, limit, paths, is_any_public))
    if dice.random() < 0.15:
        cut = spoilt(dice, cut, regions)
    enough = [MOST_BUDGET] * (30 if is_any_public else 9)
    budget = dice.choice([cut.bits & 31] * 3 + [max((cut.bits & 31) - 1, 0)] + enough)
    options = [["--turns", str(limit)], ["--paths", str(paths)]] + [["--regions", "regions"]] * ("regions" in given)
    options += [["--rules", str(table)]] if table > 1 or dice.random() < 0.3 else []
    files = given | {"program": program, "public": public, "cut": cut.text().encode()}
    flags = ["--list"] * (dice.random() < 0.7) + ["--any-public"] * is_any_public
    return files, ["bound", "program", "public", "cut", str(budget), *spelled(dice, options), *flags]


def lacking(seed, files, task):
    """The files of a trial whose cut lacks one of its points; None where it has none."""
    points = dict(task.cut.points)
    if not points:
        return None
    del points[random.Random(f"lacking {seed}").choice(sorted(points, key=point_order))]
    cut = Cut(task.cut.secret_length, task.cut.bits, task.cut.skip, points, task.cut.version)
    return files | {"cut": cut.text().encode()}
