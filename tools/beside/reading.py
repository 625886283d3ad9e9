"""A second reading of drawings, written from docs/DRAWING.md, docs/PROGRAM.md, docs/REFUSALS.md, docs/LAYERS.md and
docs/NETWORK.md; the budget that is always enough is from docs/SEARCHES.md. It shares no code with the program or with
tools/drawing.py. What a network can deliver, and its bottleneck, it does not find by itself: it asks a solver that the caller
hands in.

    reading = read(data)                    what the bytes of an input say
    for words in play(reading, solve, heard): ...    the lines that the program must print, word by word

A word that this reading cannot know is None: how many routes a settling pushes, its litres under a small budget, and whether
a limit is below what a reach carries where that depends on the routes. `heard` are the lines that the program printed, from
which such a word is taken, to go on with. Without them, Unknown is raised there.
"""

HIGHEST = 1_000_000
LONGEST = 65_536
UNSTATED = 0xFFFFFFFF

# The widths of the fields of a record's body, by its letter.
WIDTHS = {
    "H": (2, 2, 2), "N": (2, 8), "R": (2, 2, 4), "E": (), "C": (2, 4), "I": (2, 4), "O": (2, 4),
    "L": (2, 4), "S": (4,), "D": (), "B": (), "T": (),
}
COMMANDS = "LSDBT"


class Refused(Exception):
    """A refusal: its number, the part that refuses, and the place of the record."""

    def __init__(self, number, part, place):
        super().__init__(number, part, place)
        self.number, self.part, self.place = number, part, place

    def words(self):
        """The words of the line that tells it."""
        return ["refused", str(self.number), "at", str(self.place), "in", self.part]


class Unknown(Exception):
    """Raised where the next line cannot be known and no line of the program was handed in."""


class Reach:
    """A reach: its ends, its limit, and the part that answers for it."""

    def __init__(self, tail, head, limit, part):
        self.tail, self.head, self.limit, self.part = tail, head, limit, part


class Reading:
    """What an input says. `alone` is the refusal that is the whole report, or None. Then the network with its layers, the
    first name of each junction that has one, the commands as (place, letter, fields), and the refusal that ends them, or
    None."""

    def __init__(self):
        self.alone = None
        self.junctions = 2
        self.intake, self.outfall = 0, 1
        self.reaches = []
        self.names = {}
        self.commands = []
        self.end = None

    def shown(self, junction):
        """How a junction is shown in a line `across`."""
        return self.names.get(junction, str(junction))


def record_at(data, place, allowed, stated):
    """The record at a place: its letter and fields. `allowed` are the letters that have a place here, `stated` is the number
    of junctions in H, once H was read."""
    letter = chr(data[place])
    if letter not in WIDTHS or letter not in allowed:
        raise Refused(11, "reader", place)
    length = 1 + sum(WIDTHS[letter])
    if place + length > len(data):
        raise Refused(12, "reader", place)
    fields, at = [], place + 1
    for width in WIDTHS[letter]:
        body = data[at:at + width]
        fields.append(body if width == 8 else int.from_bytes(body, "big"))
        at += width
    if letter == "N":
        if fields[0] >= stated:
            raise Refused(2, "reader", place)
        if any(byte < 0x21 or byte > 0x7E for byte in fields[1]):
            raise Refused(11, "reader", place)
    return letter, fields, length


def first(checks, part, place):
    """Refuses by the first check that applies; each is a pair of a number and whether it applies."""
    for number, applies in checks:
        if applies:
            raise Refused(number, part, place)


class Builder:
    """Carries out the records of the table and of the entries."""

    def __init__(self):
        self.n = 2
        self.intake, self.outfall = 0, 1
        self.table = []
        self.names = {}
        self.chambers = []
        self.sources = []
        self.sinks = []

    def carry_out(self, letter, fields, place):
        """Carries out one record that is no command."""
        if letter == "H":
            self.shape(*fields, place)
        elif letter == "R":
            self.lay(*fields, place)
        elif letter == "N":
            self.names.setdefault(fields[0], fields[1].decode("ascii"))
        elif letter == "C":
            self.chamber(*fields, place)
        elif letter in "IO":
            self.feeder(letter, *fields, place)

    def shape(self, n, intake, outfall, place):
        """H."""
        first([(1, n < 2 or n > 256), (2, intake >= n or outfall >= n), (3, intake == outfall)], "draft", place)
        self.n, self.intake, self.outfall = n, intake, outfall

    def lay(self, tail, head, limit, place):
        """R."""
        checks = [(2, tail >= self.n or head >= self.n), (3, tail == head), (5, limit > HIGHEST),
                  (8, len(self.table) >= 1024)]
        first(checks, "draft", place)
        self.table.append((tail, head, limit))

    def chamber(self, junction, limit, place):
        """C."""
        checks = [(2, junction >= self.n), (3, any(junction == at for at, _ in self.chambers)), (5, limit > HIGHEST),
                  (8, len(self.chambers) >= 32)]
        first(checks, "chambers", place)
        self.chambers.append((junction, limit))

    def feeder(self, letter, junction, limit, place):
        """I and O."""
        entries = self.sources if letter == "I" else self.sinks
        checks = [(2, junction >= self.n + len(self.chambers)), (5, limit != UNSTATED and limit > HIGHEST),
                  (8, len(entries) >= 16)]
        first(checks, "gathering", place)
        entries.append((junction, HIGHEST if limit == UNSTATED else limit))

    def finish(self, reading):
        """Writes the whole network, all layers included, into a reading."""
        twin = {junction: self.n + e for e, (junction, _) in enumerate(self.chambers)}
        reaches = [Reach(twin.get(tail, tail), head, limit, "network") for tail, head, limit in self.table]
        reaches += [Reach(junction, twin[junction], limit, "chambers") for junction, limit in self.chambers]
        reading.junctions = self.n + len(self.chambers)
        reading.intake, reading.outfall = self.intake, twin.get(self.outfall, self.outfall)
        if self.sources or self.sinks:
            reading.intake, reading.outfall = reading.junctions, reading.junctions + 1
            reading.junctions += 2
            reaches += [Reach(reading.intake, junction, limit, "gathering") for junction, limit in self.sources]
            reaches += [Reach(junction, reading.outfall, limit, "gathering") for junction, limit in self.sinks]
        reading.reaches, reading.names = reaches, self.names


# The letters that have a place next, by the letter of the record before.
AFTER = {"": "H", "H": "NRE", "N": "NRE", "R": "NRE", "E": "CIO" + COMMANDS, "C": "CIO" + COMMANDS, "I": "IO" + COMMANDS,
         "O": "IO" + COMMANDS, "L": COMMANDS, "S": COMMANDS, "D": COMMANDS, "B": COMMANDS, "T": COMMANDS}


def read(data):
    """What an input says."""
    reading, builder = Reading(), Builder()
    try:
        if len(data) > LONGEST:
            raise Refused(13, "reader", 0)
        before, place, stated = "", 0, None
        while place < len(data):
            letter, fields, length = record_at(data, place, AFTER[before], stated)
            if letter in COMMANDS:
                reading.commands.append((place, letter, fields))
            else:
                builder.carry_out(letter, fields, place)
            if letter == "H":
                stated = fields[0]
            before, place = letter, place + length
        if before in ("", "H", "N", "R"):
            raise Refused(12, "reader", len(data))
    except Refused as refusal:
        if reading.commands:
            reading.end = refusal
        else:
            reading.alone = refusal
    if not reading.alone:
        builder.finish(reading)
    return reading


class Play:
    """The commands of a reading, carried out one after the other. `delivers` is what the network delivers."""

    def __init__(self, reading, solve, heard):
        self.reading, self.solve, self.heard = reading, solve, heard
        self.told = 0
        self.delivers = 0
        self.limits = [reach.limit for reach in reading.reaches]

    def hear(self):
        """The words of the line that the program printed next."""
        if self.heard is None:
            raise Unknown()
        return self.heard[self.told].split(" ") if self.told < len(self.heard) else []

    def most(self):
        """The most that the network can deliver with its limits as they are, and the near side of its bottleneck."""
        reading = self.reading
        arcs = tuple((reach.tail, reach.head, limit) for reach, limit in zip(reading.reaches, self.limits))
        return self.solve(reading.junctions, reading.intake, reading.outfall, arcs)

    def carried(self, k):
        """What reach k carries, where that does not depend on the routes that were pushed; else None."""
        if self.delivers == 0:
            return 0
        most, near = self.most()
        if self.delivers < most:
            return None
        tail, head = self.reading.reaches[k].tail in near, self.reading.reaches[k].head in near
        if tail and not head:
            return self.limits[k]
        return 0 if head and not tail else None

    def limit(self, place, k, q):
        """L."""
        if k >= len(self.limits):
            return Refused(4, "network", place).words()
        part = self.reading.reaches[k].part
        if q > HIGHEST:
            return Refused(5, part, place).words()
        carried = self.carried(k) if q < self.limits[k] else 0
        if carried is None:
            return self.heard_limit(place, k, q, part)
        if q < carried:
            return Refused(6, part, place).words()
        self.limits[k] = q
        return ["limit", str(k), str(q)]

    def heard_limit(self, place, k, q, part):
        """L where it depends on the routes whether it is refused: as the program told it. The first word is not known."""
        if self.hear()[:1] == ["refused"]:
            return [None] + Refused(6, part, place).words()[1:]
        self.limits[k] = q
        return [None, str(k), str(q)]

    def settle(self, budget):
        """S. Settling surely finishes with a budget of reaches times (junctions less 1)."""
        most, _ = self.most()
        left = most - self.delivers
        enough = len(self.limits) * (self.reading.junctions - 1)
        if left == 0 or budget == 0:
            words = ["settled", "0", "0"]
        elif budget >= enough:
            self.delivers = most
            words = ["settled", None, str(left)]
        else:
            words = self.heard_settling(budget, left)
        return words + ["yes" if self.delivers == most else "no"]

    def heard_settling(self, budget, left):
        """A settling under a small budget as the program told it, where that can be true: at least one route, each of a litre
        at least, no more litres than are left, and all of them where there were fewer routes than the budget."""
        words = self.hear()
        if len(words) != 4 or not words[1].isdigit() or not words[2].isdigit():
            return ["settled", "a number", "a number"]
        routes, litres = int(words[1]), int(words[2])
        if not 1 <= routes <= min(budget, litres) or litres > left or (routes < budget and litres < left):
            return ["settled", "a number that can be", "a number that can be"]
        self.delivers += litres
        return ["settled", None, None]

    def finished(self):
        """The sum and the near side of the bottleneck, or None while a route exists."""
        most, near = self.most()
        return (most, near) if self.delivers == most else None

    def bottleneck(self, place):
        """B: its line, and the lines `across`."""
        found = self.finished()
        if not found:
            return [Refused(10, "network", place).words()]
        total, near = found
        lines = [["bottleneck", str(total)]]
        for k, (reach, limit) in enumerate(zip(self.reading.reaches, self.limits)):
            if reach.tail in near and reach.head not in near:
                lines.append(["across", str(k), self.reading.shown(reach.tail), self.reading.shown(reach.head), str(limit)])
        return lines

    def drain(self):
        """D."""
        self.delivers = 0
        return ["drained"]

    def answer(self, place, letter, fields):
        """The lines of one command."""
        if letter == "L":
            return [self.limit(place, *fields)]
        if letter == "S":
            return [self.settle(*fields)]
        if letter == "B":
            return self.bottleneck(place)
        if letter == "T":
            return [["tally", str(self.delivers)]]
        return [self.drain()]


def play(reading, solve, heard=None):
    """The lines of the report, one after the other, each a list of words; a word that cannot be known is None. `solve` takes
    the number of junctions, the intake, the outfall and the reaches as (tail, head, limit), and answers the most that can be
    delivered and the set of the junctions that a finished network's open steps reach from the intake."""
    yield from report(reading, Play(reading, solve, heard))


def report(reading, state):
    """The lines of the report, its commands answered by a Play."""
    if reading.alone:
        yield reading.alone.words()
        return
    yield ["network", str(reading.junctions), str(len(reading.reaches))]
    state.told = 1
    for place, letter, fields in reading.commands:
        for words in state.answer(place, letter, fields):
            yield words
            state.told += 1
    if reading.end:
        yield reading.end.words()
