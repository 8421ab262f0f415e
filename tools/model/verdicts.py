"""The real run, the replay, the lockstep of both with its verdict lines, and acceptance by its definition."""
from cuts import VisitMasks, places_of, read_cut, read_regions
from guest import GuestExit, GuestFault, Image, RealGuest, RegionBreak, ReplayGuest, ReplayStop, shown

MOST_BUDGET = 1 << 20
USUAL_TURNS = 1_000_000


class Turn:
    """A turn that the real run has made: its kind, region and visits, and where the run stands after it."""

    def __init__(self, kind, region):
        self.kind, self.region, self.visits = kind, region, []
        self.pc, self.output_length, self.is_exited = 0, 0, False


class RealRun:
    """A whole real run: its turns, and how it ended: `exited` with a status, `fault` or `break` with a text, or
    `unfinished`."""

    def __init__(self, guest, limit):
        self.guest, self.turns, self.ending = guest, [], None
        while self.ending is None:
            if len(self.turns) == limit:
                self.ending = ("unfinished", "")
            else:
                self.make_turn()

    def make_turn(self):
        """Makes one turn, in which every value goes on as it is. A turn that is stopped is none."""
        guest = self.guest
        turn = Turn(guest.kind(), guest.entered)
        try:
            walk(guest.turn(), lambda visit: turn.visits.append(visit) or visit[3])
        except GuestExit as exited:
            turn.is_exited = True
            self.ending = ("exited", exited.status)
        except GuestFault as fault:
            self.ending = ("fault", str(fault))
            return
        except RegionBreak as broken:
            self.ending = ("break", str(broken))
            return
        turn.region = guest.entered or turn.region
        turn.pc, turn.output_length = guest.pc, len(guest.output)
        self.turns.append(turn)

    def common_turns(self, skipped):
        """The turns that the replay makes too, as (kind, turn). A skipped region is one such turn, which gives the bits
        of its leave; one that the run does not leave is none, and nothing is behind it."""
        commons, index = [], 0
        while index < len(self.turns):
            turn = self.turns[index]
            kind = turn.kind
            if kind == "enter" and turn.region.number in skipped:
                kind = "skip"
                while turn.kind != "leave":
                    index += 1
                    if index == len(self.turns):
                        return commons
                    turn = self.turns[index]
            commons.append((kind, turn))
            index += 1
        return commons


def walk(turn, respond):
    """Walks a turn: sends at each visit what is answered for it."""
    try:
        sent = None
        while True:
            sent = respond(turn.send(sent))
    except StopIteration:
        pass


def real_run(image, public, secret, regions, limit):
    """The real run of a secret."""
    return RealRun(RealGuest(image, public, secret, regions), limit)


def crossing(visit, mask):
    """The bits of a visit's value under the mask, lowest first."""
    return [int(visit[3] & place > 0) for place in places_of(mask)]


class Replay:
    """A replay on as many zeros as the cut names, which takes its bits from a list that may grow between turns."""

    def __init__(self, image, public, regions, cut, bits):
        self.guest = ReplayGuest(image, public, bytes(cut.secret_length), regions)
        self.masks = VisitMasks(cut)
        self.skipped = set(cut.skip)
        self.bits, self.used, self.status = bits, 0, None

    def patched(self, visit):
        """The value of a visit with the next bits in place of those under the mask."""
        places, value = places_of(self.masks.mask_of(visit)), visit[3]
        missing = self.used + len(places) - len(self.bits)
        if places and missing > 0:
            raise ReplayStop(f"short {missing}")
        for place in places:
            value = value & ~place | place * self.bits[self.used]
            self.used += 1
        return value

    def make_turn(self):
        """Makes one turn, or raises a `ReplayStop`."""
        guest = self.guest
        is_skipped = guest.kind() == "enter" and guest.by_enter[guest.pc].number in self.skipped
        try:
            walk(guest.turn(is_skipped), self.patched)
        except GuestExit as exited:
            self.status = exited.status
        except GuestFault as fault:
            raise ReplayStop(f"guest {fault}") from None

    def mark(self):
        """Where the replay stands."""
        return self.guest.pc, self.used, len(self.guest.output), self.status is not None


def mark_text(mark):
    """A mark as verdicts show it."""
    pc, bits, length, is_exited = mark
    return f"{shown(pc)} bits {bits} output {length} {'exited' if is_exited else 'running'}"


class Judgement:
    """The line of a secret without its number, and what happened on the way: slots that gave bits, regions left or
    skipped, and the numbers of common turns and of bits."""

    def __init__(self):
        self.word, self.text = "rejected", ""
        self.slots, self.kinds, self.turns, self.bits = set(), set(), 0, []

    def reject(self, text):
        """Sets the reason of a rejection."""
        self.text = text
        return self


def judge(image, public, secret, regions, cut, budget, limit, real=None):
    """Judges a secret: runs both in lockstep and tells the first condition that fails, by turn and then in order."""
    judged = Judgement()
    if len(secret) != cut.secret_length:
        return judged.reject(f"secret-length cut {cut.secret_length} got {len(secret)}")
    real = real or real_run(image, public, secret, regions, limit)
    masks, bits = VisitMasks(cut), judged.bits
    replay = Replay(image, public, regions, cut, bits)
    for kind, turn in real.common_turns(set(cut.skip)):
        judged.turns += 1
        judged.kinds.add(kind)
        for visit in turn.visits:
            crossed = crossing(visit, masks.mask_of(visit))
            bits += crossed
            judged.slots.update([visit[2]] if crossed else [])
        if len(bits) > budget:
            return judged.reject(f"budget {budget} needed {len(bits)}")
        try:
            replay.make_turn()
        except ReplayStop as stop:
            return judged.reject(f"replay {stop}")
        difference = difference_of(real, turn, replay, len(bits))
        if difference:
            return judged.reject(difference)
        if turn.is_exited:
            return accepted(judged, bits, real)
    reasons = {"fault": f"guest {real.ending[1]}", "break": real.ending[1], "unfinished": f"turns {limit}"}
    return judged.reject(reasons[real.ending[0]])


def difference_of(real, turn, replay, bits):
    """In what the two runs differ after a turn: where they stand, else the output so far; None where in nothing."""
    mark = turn.pc, bits, turn.output_length, turn.is_exited
    if mark != replay.mark():
        return f"parted real {mark_text(mark)} replay {mark_text(replay.mark())}"
    written, replayed = real.guest.output, replay.guest.output
    if written[: turn.output_length] != replayed:
        index = next(index for index in range(turn.output_length) if written[index] != replayed[index])
        return f"output index {index} real {written[index]} replay {replayed[index]}"
    if turn.is_exited and real.ending[1] != replay.status:
        return f"output index {turn.output_length} real {real.ending[1]} replay {replay.status}"
    return None


def packed_text(bits):
    """Bits as verdicts show them: the first is the lowest of the first byte."""
    packed = bytearray((len(bits) + 7) // 8)
    for index, bit in enumerate(bits):
        packed[index // 8] |= bit << index % 8
    return packed.hex() or "-"


def accepted(judged, bits, real):
    """The judgement of an accepted secret."""
    judged.word = "accepted"
    ending = f"output {len(real.guest.output)} status {real.ending[1]}"
    judged.text = f"bits {len(bits)} crossing {packed_text(bits)} {ending}"
    return judged


def is_accepted_by_definition(image, public, secret, regions, cut, budget, limit):
    """Acceptance as it is defined, with no lockstep: the secret has the cut's length; its real run exits within the
    limit, and so breaks no region; at most so many bits cross; after each common turn, the replay of the bits so far,
    begun anew, has used them up, is not stopped and has the real mark; and that of all bits has the real output."""
    if len(secret) != cut.secret_length:
        return False
    real = real_run(image, public, secret, regions, limit)
    if real.ending[0] != "exited":
        return False
    turns = [turn for _, turn in real.common_turns(set(cut.skip))]
    masks, bits, lengths = VisitMasks(cut), [], []
    for turn in turns:
        for visit in turn.visits:
            bits += crossing(visit, masks.mask_of(visit))
        lengths.append(len(bits))
    if len(bits) > budget:
        return False
    replay = None
    for count, (turn, length) in enumerate(zip(turns, lengths), 1):
        replay = replay_of(image, public, regions, cut, bits[:length], count)
        if replay is None or replay.mark() != (turn.pc, length, turn.output_length, turn.is_exited):
            return False
    return (replay.guest.output, replay.status) == (real.guest.output, real.ending[1])


def replay_of(image, public, regions, cut, bits, turns):
    """The replay of these bits after so many turns; None where it is stopped."""
    replay = Replay(image, public, regions, cut, bits)
    try:
        for _ in range(turns):
            if replay.status is None:
                replay.make_turn()
    except ReplayStop:
        return None
    return replay


class Command:
    """The words after `check`, with the files that they name, all of which are well formed."""

    def __init__(self, files, words):
        plain, options, words = [], {}, list(words)
        while words:
            word = words.pop(0)
            name, equals, value = word.partition("=")
            if word.startswith("--"):
                options[name] = value if equals else words.pop(0)
            else:
                plain.append(word)
        self.image, self.public = Image(files[plain[0]]), files[plain[1]]
        self.cut, self.budget = read_cut(files[plain[2]]), int(plain[3])
        self.secrets = [files[name] for name in plain[4:]]
        self.regions = read_regions(files[options["--regions"]]) if "--regions" in options else []
        self.limit = int(options.get("--turns", USUAL_TURNS))

    def judgements(self):
        """The judgement of each secret."""
        rest = (self.regions, self.cut, self.budget, self.limit)
        return [judge(self.image, self.public, secret, *rest) for secret in self.secrets]

    def disagreements(self, judgements, most):
        """Of the judgements of at most so many turns: how many there are, and how many the definition contradicts."""
        rest = (self.regions, self.cut, self.budget, self.limit)
        tried = [(secret, judged) for secret, judged in zip(self.secrets, judgements) if judged.turns <= most]
        wrong = [
            secret
            for secret, judged in tried
            if is_accepted_by_definition(self.image, self.public, secret, *rest) != (judged.word == "accepted")
        ]
        return len(tried), len(wrong)


def answer(judgements, budget):
    """The status and the text of a check."""
    count = sum(judged.word == "accepted" for judged in judgements)
    lines = [f"{judged.word} {number} {judged.text}" for number, judged in enumerate(judgements, 1)]
    lines.append(f"checked {len(judgements)} accepted {count} budget {budget}")
    return int(count < len(judgements)), "\n".join(lines) + "\n"
