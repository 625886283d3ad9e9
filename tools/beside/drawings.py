"""Drawings made from a seed, for tools/beside/compare and tools/beside/make_stored: bytes, spelt from docs/DRAWING.md."""

import random

UNSTATED = 0xFFFFFFFF
HIGHEST = 1_000_000


def number(value, width):
    """A number with its high byte first."""
    return value.to_bytes(width, "big")


def shape(n, intake, outfall):
    """Record H."""
    return b"H" + number(n, 2) + number(intake, 2) + number(outfall, 2)


def name(junction, eight):
    """Record N."""
    return b"N" + number(junction, 2) + eight


def reach(tail, head, limit):
    """Record R."""
    return b"R" + number(tail, 2) + number(head, 2) + number(limit, 4)


def entry(letter, junction, limit):
    """Record C, I or O."""
    return letter + number(junction, 2) + number(limit, 4)


def set_limit(k, limit):
    """Record L."""
    return b"L" + number(k, 2) + number(limit, 4)


def settle(budget):
    """Record S."""
    return b"S" + number(budget, 4)


# Tables: each answers the pairs of junctions that reaches join, over n junctions. The intake and the outfall are chosen
# with them.

def sparse(rng, n):
    """About one and a half reaches a junction, anywhere."""
    return 0, n - 1, [rng.sample(range(n), 2) for _ in range(n + n // 2)]


def dense(rng, n):
    """As many reaches as pairs of junctions, or 1,024, anywhere."""
    return 0, n - 1, [rng.sample(range(n), 2) for _ in range(min(1024, n * (n - 1)))]


def grid(rng, n):
    """A grid, each reach down or to the right, some turned round."""
    wide = max(1, int(n ** 0.5))
    pairs = [(v, v + 1) for v in range(n - 1) if (v + 1) % wide] + [(v, v + wide) for v in range(n - wide)]
    return 0, n - 1, [pair if rng.random() < 0.85 else pair[::-1] for pair in pairs]


def layered(rng, n):
    """Layers of junctions between intake and outfall; reaches go to the next layer, a few back."""
    wide = max(1, min(n - 2, rng.randint(1, 9)))
    layers = [[0]] + [list(range(at, min(at + wide, n - 1))) for at in range(1, n - 1, wide)] + [[n - 1]]
    pairs = []
    for near, far in zip(layers, layers[1:]):
        for tail in near:
            pairs += [(tail, head) for head in far if rng.random() < 0.6 or len(far) == 1]
        if rng.random() < 0.3:
            pairs.append((rng.choice(far), rng.choice(near)))
    return 0, n - 1, pairs


def bipartite(rng, n):
    """The intake to a left side, the left side to a right side, that to the outfall."""
    left = max(1, (n - 2) // 2)
    pairs = [(0, v) for v in range(1, min(left + 1, n - 1))] + [(v, n - 1) for v in range(left + 1, n - 1)]
    for v in range(1, left + 1):
        pairs += [(v, rng.randrange(left + 1, n - 1)) for _ in range(rng.randint(1, 3)) if left + 1 < n - 1]
    return 0, n - 1, pairs


def tree(rng, n):
    """Canals that branch from the intake, and join before the outfall."""
    pairs, ends = [], set(range(n - 1))
    for v in range(1, n - 1):
        above = rng.randrange(max(0, v - 6), v)
        pairs.append((above, v))
        ends.discard(above)
    return 0, n - 1, pairs + [(v, n - 1) for v in sorted(ends)]


def apart(rng, n):
    """Two halves with no reach between them, or one alone."""
    half = max(1, n // 2)
    pairs = []
    for low, high in ((0, half), (half, n)):
        if high - low > 1:
            pairs += [[low + v for v in rng.sample(range(high - low), 2)] for _ in range(high - low + 2)]
    if rng.random() < 0.5:
        pairs.append((half - 1, half))
    return 0, n - 1, pairs


def beside(rng, n):
    """Few pairs of junctions, with several reaches each, both ways."""
    pairs = []
    for _ in range(max(1, n // 2)):
        tail, head = rng.sample(range(n), 2)
        pairs += [(tail, head)] * rng.randint(1, 4) + [(head, tail)] * rng.randint(0, 3)
    return 0, n - 1, pairs + [(0, rng.randrange(1, n)), (rng.randrange(n - 1), n - 1)]


def crowded(rng, n):
    """As many reaches as a table has rows, over few junctions."""
    few = min(n, rng.randint(2, 5))
    return 0, few - 1, [rng.sample(range(few), 2) for _ in range(1024)]


def line(rng, n):
    """One after the other, with some reaches that pass by a few junctions."""
    pairs = [(v, v + 1) for v in range(n - 1)]
    for _ in range(n // 3):
        v = rng.randrange(n)
        w = rng.randrange(max(0, v - 5), min(n, v + 6))
        if v != w:
            pairs.append((v, w))
    return 0, n - 1, pairs


TABLES = [sparse, dense, grid, layered, bipartite, tree, apart, beside, line]

# Limits: each answers one limit.
LIMITS = [
    lambda rng: 1,
    lambda rng: rng.randint(0, 1),
    lambda rng: rng.randint(0, 5),
    lambda rng: rng.randint(1, 40),
    lambda rng: 50 * rng.randint(0, 60),
    lambda rng: rng.randint(0, HIGHEST),
    lambda rng: rng.choice([0, 1, HIGHEST - 1, HIGHEST]),
]


def size(rng):
    """The number of junctions: most are few, some are as many as a table may have."""
    turn = rng.random()
    if turn < 0.72:
        return rng.randint(2, 9)
    if turn < 0.93:
        return rng.randint(10, 60)
    return rng.choice([255, 256, rng.randint(100, 256)])


def table(rng):
    """A table: its number of junctions, intake, outfall, and its reaches with their limits. In one of four a reach that
    enters the intake or leaves the outfall is there too; in one of four the junctions are numbered anew."""
    n = size(rng)
    form = crowded if rng.random() < 0.02 else rng.choice(TABLES)
    if n == 2 and form != crowded:
        intake, outfall, pairs = 0, 1, [(0, 1)] * rng.randint(0, 3) + [(1, 0)]
    else:
        intake, outfall, pairs = form(rng, n)
    pairs = [tuple(pair) for pair in pairs]
    if n > 2 and rng.random() < 0.25:
        pairs += [(rng.randrange(1, n), intake), (outfall, rng.randrange(n - 1))]
    if n >= 100 and rng.random() < 0.5:
        pairs += [tuple(rng.sample(range(n), 2)) for _ in range(1024 - len(pairs))]
    rng.shuffle(pairs)
    if rng.random() < 0.25:
        new = rng.sample(range(n), n)
        intake, outfall, pairs = new[intake], new[outfall], [(new[tail], new[head]) for tail, head in pairs]
    amount = rng.choice(LIMITS)
    return n, intake, outfall, [(tail, head, amount(rng)) for tail, head in pairs[:1024]]


def table_records(rng, n, intake, outfall, reaches):
    """The records of a table, with names at any place among them."""
    records = [reach(*each) for each in reaches]
    if rng.random() < 0.6:
        for _ in range(rng.randint(1, min(2 * n, 40))):
            eight = bytes(rng.randint(0x21, 0x7E) for _ in range(8))
            records.insert(rng.randint(0, len(records)), name(rng.randrange(n), eight))
    return [shape(n, intake, outfall)] + records + [b"E"]


def chamber_records(rng, n, amount):
    """Chambers, or none. A few are refused: at a junction that has one, at a twin, or one more than there may be."""
    number = rng.choice([0, 0, 1, 2, 5, 32, 33 if rng.random() < 0.5 else 3])
    at = rng.sample(range(n), min(n, number))
    if rng.random() < 0.03:
        at.insert(rng.randint(0, len(at)), rng.choice(at + [n, n + 1]))
    return [entry(b"C", junction, HIGHEST + 1 if rng.random() < 0.003 else amount(rng)) for junction in at]


def feeder_records(rng, n, amount):
    """Sources and sinks, or none of a kind, over n junctions. A few are refused: at no junction, or one more than there may
    be."""
    records = []
    for letter in (b"I", b"O"):
        number = rng.choice([0, 0, 1, 2, 4, 16, 17 if rng.random() < 0.2 else 3]) if rng.random() < 0.7 else 0
        for _ in range(number):
            limit = UNSTATED if rng.random() < 0.3 else HIGHEST + 1 if rng.random() < 0.004 else amount(rng)
            records.append(entry(letter, n if rng.random() < 0.004 else rng.randrange(n), limit))
    rng.shuffle(records)
    return records


def entry_records(rng, n):
    """Chambers, and sources and sinks over them; often a kind is not there."""
    amount = rng.choice(LIMITS)
    chambers = chamber_records(rng, n, amount)
    return chambers + feeder_records(rng, n + len(chambers), amount)


def limit_record(rng, reaches):
    """A record L: of a reach that is there or not, to any limit."""
    k = rng.randrange(reaches) if reaches and rng.random() < 0.93 else rng.choice([reaches, reaches + 1, 65535])
    limit = rng.choice([0, 1, 2, rng.randint(0, 9), rng.randint(0, 40), rng.randint(0, 3000), rng.randint(0, HIGHEST), HIGHEST])
    return set_limit(k, rng.choice([HIGHEST + 1, UNSTATED]) if rng.random() < 0.06 else limit)


def command_records(rng, reaches, budgets, most):
    """Commands, up to `most` and three more: in most drawings a settling with an unlimited budget, a bottleneck and a tally
    end them."""
    records = []
    for _ in range(rng.randint(0, most)):
        letter = rng.choice("LLLSSSDBBT")
        if letter == "L":
            records.append(limit_record(rng, reaches))
        elif letter == "S":
            records.append(settle(UNSTATED if rng.random() < 0.5 else rng.choice(budgets)))
        else:
            records.append(letter.encode())
    if rng.random() < 0.85:
        records += [settle(UNSTATED), b"B", b"T"]
    return records


def faulty(rng, n, records):
    """The records with one more that some part refuses, just beyond a bound or far beyond it, at any place. Where it stands out
    of order, the reader refuses it. A shape takes the place of the first record."""
    wrong = [shape(257, 0, 1), shape(rng.choice([0, 1, 65535]), 0, 1), shape(n, 0, n), shape(n, n, 0), shape(n, 1, 1),
             reach(1, 1, 5), reach(0, n, 5), reach(n, 0, 5), reach(0, 1, HIGHEST + 1), reach(1, 0, UNSTATED),
             entry(b"C", 0, HIGHEST + 1), entry(b"C", n, 1), entry(b"I", n + 32, 1), entry(b"O", n + 1, 1),
             entry(b"I", 0, HIGHEST + 1), entry(b"O", 0, UNSTATED - 1), name(n, b"ABCDEFGH"), name(0, b"ABCD EFG"),
             name(0, b"ABCDEFG\x7f"), name(1, b"\x20BCDEFGH"), name(1, b"ABC\xc1EFGH"), b"X", b"h", b"\x00"]
    extra = rng.choice(wrong)
    if extra[:1] == b"H" and rng.random() < 0.8:
        return [extra] + records[1:]
    if extra[:1] in (b"R", b"N") and rng.random() < 0.6:
        at = 1
    elif extra[:1] in (b"C", b"I", b"O") and rng.random() < 0.7:
        at = records.index(b"E") + 1
    else:
        at = rng.randint(0, len(records))
    return records[:at] + [extra] + records[at:]


def tangled(seed, index):
    """Records as dice throw them, most of them such as could stand in one small drawing, in an order that is most often nearly
    that of a drawing."""
    rng = random.Random(f"tangle {seed} {index}")
    n = rng.randint(2, 5)
    amount = rng.choice(LIMITS)
    eight = bytes(rng.choice([0x21, 0x7E, rng.randint(0x21, 0x7E)]) for _ in range(8))
    makes = {
        "H": lambda: shape(n, 0, n - 1), "N": lambda: name(rng.randrange(n + 1), eight),
        "R": lambda: reach(rng.randrange(n), rng.randrange(n), amount(rng)), "E": lambda: b"E",
        "C": lambda: entry(b"C", rng.randrange(n + 1), amount(rng)), "I": lambda: entry(b"I", rng.randrange(n + 2), UNSTATED),
        "O": lambda: entry(b"O", rng.randrange(n + 2), amount(rng)), "L": lambda: set_limit(rng.randrange(12), amount(rng)),
        "S": lambda: settle(rng.choice([0, 1, 2, UNSTATED])), "D": lambda: b"D", "B": lambda: b"B", "T": lambda: b"T",
    }
    letters = list("H" + "".join(rng.choices("NR", k=rng.randint(0, 7))) + "E" + "C" * rng.randint(0, 2)
                   + "".join(rng.choices("IO", k=rng.randint(0, 3))) + "".join(rng.choices("LSDBT", k=rng.randint(0, 9))))
    for _ in range(rng.choice([0, 0, 1, 2])):
        at = rng.randrange(len(letters) + 1)
        letters[at:at + rng.randint(0, 1)] = rng.choice(list(makes)) * rng.randint(0, 1)
    return b"".join(makes[letter]() for letter in letters)


def drawing(seed, index):
    """Drawing number `index` of a seed."""
    rng = random.Random(f"drawing {seed} {index}")
    n, intake, outfall, reaches = table(rng)
    entries = entry_records(rng, n) if rng.random() < 0.6 else []
    if rng.random() < 0.02:
        reaches += [(0, 1, 1)] * (1025 - len(reaches))
    few = rng.choice([4, 12, 30]) if len(reaches) < 200 else 4
    records = table_records(rng, n, intake, outfall, reaches) + entries
    records += command_records(rng, len(reaches) + len(entries), [0, 1, 1, 2, 3, 5, 20, 65536], few)
    if rng.random() < 0.1:
        records = faulty(rng, n, records)
    data = b"".join(records)
    if index % 500 == 499:
        data += b"T" * (65536 + rng.randint(-1, 1) - len(data))
    return data


def damaged(seed, index):
    """Drawing number `index` of a seed, damaged in one of five ways: a byte changed, taken out or put in, the end cut off, or
    two bytes that stand one behind the other swapped. In one of four it is damaged twice."""
    rng = random.Random(f"damage {seed} {index}")
    data = bytearray(drawing(seed, index))
    for _ in range(rng.choice([1, 1, 1, 2])):
        at = rng.randrange(len(data)) if data else 0
        if rng.random() < 0.4:
            at = rng.randrange(min(len(data), 60)) if data else 0
        way = rng.choice(["changed", "out", "in", "cut", "swapped"])
        byte = rng.choice([rng.randrange(256), rng.choice(b"HNREIOCLSDBT"), 0])
        if way == "changed" and data:
            data[at] = byte
        elif way == "out":
            del data[at:at + 1]
        elif way == "in":
            data.insert(at, byte)
        elif way == "cut":
            del data[at:]
        elif len(data) > 1:
            at = min(at, len(data) - 2)
            data[at], data[at + 1] = data[at + 1], data[at]
    return bytes(data)
