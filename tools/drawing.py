#!/usr/bin/env python3
"""Drawings of irrigation schemes: builders, a readable listing, and a plain model of networks and of the report.

The model is written from the rules alone, and uses no code of the program `allocate`. What it prints for a drawing
is what the program is expected to print.

    python3 tools/drawing.py show FILE      lists the records of a drawing, one a line
    python3 tools/drawing.py report FILE    prints the expected report of a drawing
"""

import sys

MAX_INPUT = 65_536  # bytes of a drawing
MAX_JUNCTIONS = 256  # of a table
MAX_REACHES = 1_024  # of a table
STACK_JUNCTIONS = 512  # of a table with all the layers over it
STACK_REACHES = 2_048  # of a table with all the layers over it
MAX_CHAMBERS = 32  # of one layer
MAX_SOURCES = 16  # of one layer
MAX_SINKS = 16  # of one layer
MAX_LIMIT = 1_000_000  # litres per second
NOT_STATED = 0xFFFF_FFFF  # in I and O: no limit is stated
MARKS = 512  # the marks of the program

# What a refusal's number says.
BAD_COUNT = 1  # fewer than 2 junctions, or more than 256
NO_JUNCTION = 2  # a junction that is not below the number of junctions
SAME_JUNCTION = 3  # two junctions that must differ are one
NO_REACH = 4  # a reach that is not below the number of reaches
LIMIT_HIGH = 5  # a limit over 1,000,000
LIMIT_LOW = 6  # a limit below what the reach carries
AMOUNT_HIGH = 7  # an amount above the limit
NO_PLACE = 8  # 1,024 reaches are laid already, the entries of a layer are full, or there are too few marks
STACK_LARGE = 9  # over 512 junctions or 2,048 reaches with this entry
ROUTE_EXISTS = 10  # a bottleneck is asked for while a route exists
BAD_BYTE = 11  # a kind that has no place there, or a byte that no name may have
CUT_OFF = 12  # the input ends too early
TOO_LONG = 13  # the input is over 65,536 bytes
TOO_LATE = 14  # the shape is stated when a reach is laid, or an entry comes while a reach carries

# The body of each kind: the width of each of its numbers in bytes. A name is 8 bytes and no number.
NAME_BYTES = 8
BODY = {
    "H": (2, 2, 2),  # junctions, intake, outfall
    "N": (2, NAME_BYTES),  # junction, name
    "R": (2, 2, 4),  # tail, head, limit
    "E": (),
    "C": (2, 4),  # junction, limit
    "I": (2, 4),  # junction, limit
    "O": (2, 4),  # junction, limit
    "L": (2, 4),  # reach, limit
    "S": (4,),  # budget
    "D": (),
    "B": (),
    "T": (),
}
KINDS = "".join(BODY)

# For each stage of the reading: the kinds that have a place there, and the stage that each leads to.
COMMANDS = {kind: "commands" for kind in "LSDBT"}
STAGES = {
    "start": {"H": "table"},
    "table": {"N": "table", "R": "table", "E": "after E"},
    "after E": {"C": "after E", "I": "after I or O", "O": "after I or O", **COMMANDS},
    "after I or O": {"I": "after I or O", "O": "after I or O", **COMMANDS},
    "commands": COMMANDS,
}
MAY_END = ("after E", "after I or O", "commands")


# ---- Builders: each returns the bytes of one record. -----------------------------------------------------------------


def number(value, width):
    """A number of `width` bytes, high byte first."""
    return value.to_bytes(width, "big")


def H(junctions, intake, outfall):
    return b"H" + number(junctions, 2) + number(intake, 2) + number(outfall, 2)


def N(junction, name):
    """A junction's name: text, or bytes where a byte is to be bad. Always 8 bytes."""
    name = name.encode("latin-1") if isinstance(name, str) else bytes(name)
    if len(name) != NAME_BYTES:
        raise ValueError(f"a name has {NAME_BYTES} bytes: {name!r}")
    return b"N" + number(junction, 2) + name


def R(tail, head, limit):
    return b"R" + number(tail, 2) + number(head, 2) + number(limit, 4)


def E():
    return b"E"


def C(junction, limit):
    return b"C" + number(junction, 2) + number(limit, 4)


def I(junction, limit):  # noqa: E743
    """A source. The limit None is that no limit is stated."""
    return b"I" + number(junction, 2) + number(NOT_STATED if limit is None else limit, 4)


def O(junction, limit):  # noqa: E743
    """A sink. The limit None is that no limit is stated."""
    return b"O" + number(junction, 2) + number(NOT_STATED if limit is None else limit, 4)


def L(reach, limit):
    return b"L" + number(reach, 2) + number(limit, 4)


def S(budget):
    return b"S" + number(budget, 4)


def D():
    return b"D"


def B():
    return b"B"


def T():
    return b"T"


# ---- The model: networks. --------------------------------------------------------------------------------------------


class Refused(Exception):
    """A refusal: its number and the part it comes from. The place is known where it is caught."""

    def __init__(self, reason, part):
        super().__init__(reason, part)
        self.reason = reason
        self.part = part


class Reach:
    def __init__(self, tail, head, limit, carried=0):
        self.tail = tail
        self.head = head
        self.limit = limit
        self.carried = carried


class Network:
    """n junctions, an intake, an outfall, and m reaches in order. Here stands what is one rule for all networks.

    Each network says by itself what n, m, intake and outfall are; `reaches`: the list of its reaches as they are now;
    `kept`: where the limit and the carried amount of its reach k are kept, and the part that added the reach.
    """

    def carry(self, k, amount):
        if k >= self.m:
            raise Refused(NO_REACH, "network")
        reach, part = self.kept(k)
        if amount > reach.limit:
            raise Refused(AMOUNT_HIGH, part)
        reach.carried = amount

    def limit(self, k, limit):
        if k >= self.m:
            raise Refused(NO_REACH, "network")
        reach, part = self.kept(k)
        if limit > MAX_LIMIT:
            raise Refused(LIMIT_HIGH, part)
        if limit < reach.carried:
            raise Refused(LIMIT_LOW, part)
        reach.limit = limit

    def drain(self):
        for k in range(self.m):
            self.carry(k, 0)

    def tally(self):
        leaves = sum(reach.carried for reach in self.reaches() if reach.tail == self.intake)
        enters = sum(reach.carried for reach in self.reaches() if reach.head == self.intake)
        return leaves - enters

    def near_side(self):
        """The junctions that open steps reach from the intake, the intake among them."""
        near, new = {self.intake}, True
        reaches = self.reaches()
        while new:
            new = {r.head for r in reaches if r.tail in near and r.carried < r.limit}  # forth along a reach
            new |= {r.tail for r in reaches if r.head in near and r.carried > 0}  # back along it
            new -= near
            near |= new
        return near

    def bottleneck(self, marks=MARKS):
        """The near side, and the crossing reaches, each with its number. Their limits, added up, are the sum. `marks`
        is for how many junctions the caller has marks.
        """
        if marks < self.n:
            raise Refused(NO_PLACE, "network")
        near = self.near_side()
        if self.outfall in near:
            raise Refused(ROUTE_EXISTS, "network")
        return near, [(k, r) for k, r in enumerate(self.reaches()) if r.tail in near and r.head not in near]

    def first_shortest_route(self):
        """The route with the fewest steps, and of those the one that is first by its step numbers; None where there is
        no route. Step 2k goes along reach k, step 2k + 1 back along it.
        """
        steps = []  # the open steps: number, where it begins, where it finishes
        for k, reach in enumerate(self.reaches()):
            if reach.carried < reach.limit:
                steps.append((2 * k, reach.tail, reach.head))
            if reach.carried > 0:
                steps.append((2 * k + 1, reach.head, reach.tail))
        into = {}
        for _, begin, finish in steps:
            into.setdefault(finish, []).append(begin)
        distance, ring = {self.outfall: 0}, [self.outfall]
        while ring:
            further = []
            for finish in ring:
                for begin in into.get(finish, []):
                    if begin not in distance:
                        distance[begin] = distance[finish] + 1
                        further.append(begin)
            ring = further
        if self.intake not in distance:
            return None
        route, at = [], self.intake
        while at != self.outfall:
            number, at = min(
                (number, finish)
                for number, begin, finish in steps
                if begin == at and distance.get(finish) == distance[at] - 1
            )
            route.append(number)
        return route

    def settle(self, budget):
        """Pushes first shortest routes until there is none or the budget is spent. Returns how many, the litres that
        they added, and whether none is left.
        """
        routes = litres = 0
        while True:
            route = self.first_shortest_route()
            if route is None or routes == budget:
                return routes, litres, route is None
            along = [(self.kept(step // 2)[0], step % 2) for step in route]
            least = min(reach.carried if back else reach.limit - reach.carried for reach, back in along)
            for reach, back in along:
                reach.carried += -least if back else least
            routes += 1
            litres += least


class Draft:
    """A network that is still being laid."""

    def __init__(self):
        self.n = 2
        self.intake = 0
        self.outfall = 1
        self.laid = []

    def shape(self, n, intake, outfall):
        if n < 2 or n > MAX_JUNCTIONS:
            raise Refused(BAD_COUNT, "draft")
        if intake >= n or outfall >= n:
            raise Refused(NO_JUNCTION, "draft")
        if intake == outfall:
            raise Refused(SAME_JUNCTION, "draft")
        if self.laid:
            raise Refused(TOO_LATE, "draft")
        self.n, self.intake, self.outfall = n, intake, outfall

    def lay(self, tail, head, limit):
        if tail >= self.n or head >= self.n:
            raise Refused(NO_JUNCTION, "draft")
        if tail == head:
            raise Refused(SAME_JUNCTION, "draft")
        if limit > MAX_LIMIT:
            raise Refused(LIMIT_HIGH, "draft")
        if len(self.laid) >= MAX_REACHES:
            raise Refused(NO_PLACE, "draft")
        self.laid.append(Reach(tail, head, limit))

    def commission(self):
        return Table(self.n, self.intake, self.outfall, self.laid)


class Table(Network):
    """The bottom network. Its part is network."""

    def __init__(self, n, intake, outfall, laid):
        self.n = n
        self.intake = intake
        self.outfall = outfall
        self.laid = laid

    @property
    def m(self):
        return len(self.laid)

    def reaches(self):
        return list(self.laid)

    def kept(self, k):
        return self.laid[k], "network"

    def carries(self):
        return any(reach.carried > 0 for reach in self.laid)


class Layer(Network):
    """A network over the network below. First come the reaches of the network below, by their numbers there, then
    those that the layer adds. A layer with no entry is the network below.

    Each layer says by itself what it adds: `added`, a list of reaches; and its part.
    """

    def __init__(self, below):
        self.below = below

    @property
    def m(self):
        return self.below.m + len(self.added())

    def kept(self, k):
        if k < self.below.m:
            return self.below.kept(k)
        return self.added()[k - self.below.m], self.part

    def carries(self):
        """Whether some reach of the whole network so far carries more than 0."""
        return self.below.carries() or any(reach.carried > 0 for reach in self.added())


class Chambers(Layer):
    """An entry gives a junction of the network below a limit."""

    part = "chambers"

    def __init__(self, below):
        super().__init__(below)
        self.own = []  # for each entry, in order: the reach from its junction to the junction's twin

    def added(self):
        return self.own

    @property
    def n(self):
        return self.below.n + len(self.own)

    def twin(self, junction):
        """The twin of a junction that has an entry. Of any other, the junction itself."""
        for reach in self.own:
            if reach.tail == junction:
                return reach.head
        return junction

    @property
    def intake(self):
        return self.below.intake

    @property
    def outfall(self):
        return self.twin(self.below.outfall)

    def reaches(self):
        """A reach of the network below that left a junction with an entry leaves the twin. Heads stay."""
        return [
            Reach(self.twin(reach.tail), reach.head, reach.limit, reach.carried) for reach in self.below.reaches()
        ] + self.own

    def chamber(self, junction, limit):
        if junction >= self.below.n:
            raise Refused(NO_JUNCTION, self.part)
        if any(reach.tail == junction for reach in self.own):
            raise Refused(SAME_JUNCTION, self.part)
        if limit > MAX_LIMIT:
            raise Refused(LIMIT_HIGH, self.part)
        if len(self.own) >= MAX_CHAMBERS:
            raise Refused(NO_PLACE, self.part)
        if self.n + 1 > STACK_JUNCTIONS or self.m + 1 > STACK_REACHES:
            raise Refused(STACK_LARGE, self.part)
        if self.carries():
            raise Refused(TOO_LATE, self.part)
        # Entry e adds junction n + e, where n is the number of junctions of the network below.
        self.own.append(Reach(junction, self.below.n + len(self.own), limit))


class Gathering(Layer):
    """An entry names a junction of the network below as a source or as a sink."""

    part = "gathering"

    def __init__(self, below):
        super().__init__(below)
        self.sources = []  # for each source, in order: its feeder
        self.sinks = []  # for each sink, in order: its feeder

    def added(self):
        return self.sources + self.sinks

    # With the first entry two junctions appear: n becomes the intake and n + 1 the outfall, where n is the number of
    # junctions of the network below.

    @property
    def n(self):
        return self.below.n + 2 if self.added() else self.below.n

    @property
    def intake(self):
        return self.below.n if self.added() else self.below.intake

    @property
    def outfall(self):
        return self.below.n + 1 if self.added() else self.below.outfall

    def reaches(self):
        return self.below.reaches() + self.added()

    def source(self, junction, limit):
        self.check(junction, limit, len(self.sources), MAX_SOURCES)
        self.sources.append(Reach(self.below.n, junction, MAX_LIMIT if limit is None else limit))

    def sink(self, junction, limit):
        self.check(junction, limit, len(self.sinks), MAX_SINKS)
        self.sinks.append(Reach(junction, self.below.n + 1, MAX_LIMIT if limit is None else limit))

    def check(self, junction, limit, count, most):
        """Refuses an entry that is not to be made. The limit is None where none is stated."""
        if junction >= self.below.n:
            raise Refused(NO_JUNCTION, self.part)
        if limit is not None and limit > MAX_LIMIT:
            raise Refused(LIMIT_HIGH, self.part)
        if count >= most:
            raise Refused(NO_PLACE, self.part)
        if self.below.n + 2 > STACK_JUNCTIONS or self.m + 1 > STACK_REACHES:
            raise Refused(STACK_LARGE, self.part)
        if self.carries():
            raise Refused(TOO_LATE, self.part)


# ---- The model: the report. ------------------------------------------------------------------------------------------


def fields_of(kind, body):
    """The numbers of a whole body, in order. A name stays bytes. A limit that is not stated is None."""
    fields, at = [], 0
    for width in BODY[kind]:
        field = body[at : at + width]
        fields.append(field if width == NAME_BYTES else int.from_bytes(field, "big"))
        at += width
    if kind in "IO" and fields[1] == NOT_STATED:
        fields[1] = None
    return fields


def read_record(data, place, stage, n):
    """Reads the record that begins at `place`. Returns its kind, its fields, and the next record's place."""
    kind = chr(data[place])
    if kind not in STAGES[stage]:
        raise Refused(BAD_BYTE, "reader")
    end = place + 1 + sum(BODY[kind])
    if end > len(data):
        raise Refused(CUT_OFF, "reader")
    fields = fields_of(kind, data[place + 1 : end])
    if kind == "N":
        junction, name = fields
        if junction >= n:
            raise Refused(NO_JUNCTION, "reader")
        if any(byte < 0x21 or byte > 0x7E for byte in name):
            raise Refused(BAD_BYTE, "reader")
    return kind, fields, end


def bottleneck_lines(network, names):
    """The lines of an accepted B: the sum, and each reach that crosses from near to far. A junction is shown by its
    name, or by its number where it has none.
    """
    _, crossing = network.bottleneck()
    lines = [f"bottleneck {sum(reach.limit for _, reach in crossing)}"]
    for k, reach in crossing:
        tail, head = (names.get(junction, str(junction)) for junction in (reach.tail, reach.head))
        lines.append(f"across {k} {tail} {head} {reach.limit}")
    return lines


def report(data):
    """The text that the program prints for a drawing."""
    if len(data) > MAX_INPUT:
        return f"refused {TOO_LONG} at 0 in reader\n"

    draft = Draft()
    chambers = network = None  # from E on: chambers over the table, and the whole: gathering over the chambers
    names = {}  # junction: its name, which is the first that a record N gives it
    stage = "start"
    commanded = False  # a command was read whole, so the network line is printed
    lines = []
    place = 0

    while True:
        if place == len(data):
            if stage not in MAY_END:
                lines.append(f"refused {CUT_OFF} at {place} in reader")
            elif not commanded:
                lines.append(f"network {network.n} {network.m}")
            break

        # One record is read.
        try:
            kind, fields, following = read_record(data, place, stage, draft.n)
        except Refused as refusal:
            lines.append(f"refused {refusal.reason} at {place} in {refusal.part}")
            break
        stage = STAGES[stage][kind]
        if kind in COMMANDS and not commanded:
            lines.append(f"network {network.n} {network.m}")
            commanded = True

        # It is carried out.
        try:
            if kind == "H":
                draft.shape(*fields)
            elif kind == "N":
                names.setdefault(fields[0], fields[1].decode("ascii"))
            elif kind == "R":
                draft.lay(*fields)
            elif kind == "E":
                chambers = Chambers(draft.commission())
                network = Gathering(chambers)
            elif kind == "C":
                chambers.chamber(*fields)
            elif kind == "I":
                network.source(*fields)
            elif kind == "O":
                network.sink(*fields)
            elif kind == "L":
                network.limit(*fields)
                lines.append(f"limit {fields[0]} {fields[1]}")
            elif kind == "S":
                routes, litres, finished = network.settle(*fields)
                lines.append(f"settled {routes} {litres} {'yes' if finished else 'no'}")
            elif kind == "D":
                network.drain()
                lines.append("drained")
            elif kind == "B":
                lines += bottleneck_lines(network, names)
            elif kind == "T":
                lines.append(f"tally {network.tally()}")
        except Refused as refusal:
            lines.append(f"refused {refusal.reason} at {place} in {refusal.part}")
            if not commanded:
                break

        place = following

    return "".join(line + "\n" for line in lines)


# ---- The readable listing. -------------------------------------------------------------------------------------------

WORDS = {
    "H": "junctions {0}, intake {1}, outfall {2}",
    "N": "junction {0} is {1}",
    "R": "reach from {0} to {1}, limit {2}",
    "E": "end of the table",
    "C": "chamber at junction {0}, limit {1}",
    "I": "source at junction {0}, {1}",
    "O": "sink at junction {0}, {1}",
    "L": "reach {0}, limit {1}",
    "S": "budget {0}",
    "D": "drain",
    "B": "bottleneck",
    "T": "tally",
}


def name_text(name):
    """A name as text. A byte that no name may have is shown in hex."""
    return "".join(chr(byte) if 0x21 <= byte <= 0x7E else f"\\x{byte:02x}" for byte in name)


def show(data):
    """A listing, one record a line: place, kind, fields. It judges nothing but what it cannot read."""
    lines, place, reaches = [], 0, 0
    while place < len(data):
        kind = chr(data[place])
        if kind not in BODY:
            lines.append(f"{place:5}  ?  no kind: hex {data[place]:02x} ({len(data) - place} bytes not listed)")
            break
        length = sum(BODY[kind])
        body = data[place + 1 : place + 1 + length]
        if len(body) < length:
            lines.append(f"{place:5}  {kind}  cut off: {len(body)} of {length} bytes of its body")
            break
        fields = fields_of(kind, body)
        if kind == "N":
            fields[1] = name_text(fields[1])
        if kind in "IO":
            fields[1] = "no limit stated" if fields[1] is None else f"limit {fields[1]}"
        text = WORDS[kind].format(*fields)
        if kind == "R":
            text = text.replace("reach", f"reach {reaches}", 1)
            reaches += 1
        lines.append(f"{place:5}  {kind}  {text}")
        place += 1 + length
    return "".join(line + "\n" for line in lines)


def main(arguments):
    actions = {"show": show, "report": report}
    if len(arguments) != 2 or arguments[0] not in actions:
        sys.exit("usage: drawing.py show FILE | drawing.py report FILE")
    with open(arguments[1], "rb") as file:
        sys.stdout.write(actions[arguments[0]](file.read()))


if __name__ == "__main__":
    main(sys.argv[1:])
