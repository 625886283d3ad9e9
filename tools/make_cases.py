#!/usr/bin/env python3
"""Writes crates/drawings/stdin and crates/drawings/stdout: many drawings, and the report expected for each. Those that
beside/make_stored writes stay.

stdin has one drawing a line: its name, a space, and its bytes in lowercase hex (`-` for the empty drawing).
stdout has for each drawing a line `drawing NAME`, and then its report.

The reports come from the model in drawing.py. For the drawings made by hand the report is stated here as well,
and a difference between the two stops this tool. Every run writes the same drawings.
"""

import sys
from pathlib import Path

sys.dont_write_bytecode = True  # leaves no __pycache__ beside the tools
import make_examples  # noqa: E402
import stored  # noqa: E402
from drawing import B, C, D, E, H, I, KINDS, L, MAX_INPUT, N, O, R, S, T, report  # noqa: E402

NAME_LETTERS = set("abcdefghijklmnopqrstuvwxyzABCDEFGHIJKLMNOPQRSTUVWXYZ0123456789-")

RANDOM_VALID = 36
RANDOM_DAMAGED = 32  # a multiple of the four sorts of damage
RANDOM_BOTTLENECKS = 20
DAMAGED_BOTTLENECKS = 10

cases = {}  # name: bytes, in the order of the files


def add(name, data, *expected):
    """Adds a case. The lines of its report, where they are given, must be those of the model."""
    if name in cases or not set(name) <= NAME_LETTERS:
        sys.exit(f"bad name of a case: {name}")
    if expected:
        stated = "".join(line + "\n" for line in expected)
        if report(data) != stated:
            sys.exit(f"{name}: stated\n{stated}but the model says\n{report(data)}")
    cases[name] = data


def refused(number, place, part):
    return f"refused {number} at {place} in {part}"


# A whole record of every kind, sound wherever the kind has a place in a drawing of three junctions and two reaches.
WHOLE = {
    "H": H(3, 0, 2),
    "N": N(1, "WESTMAIN"),
    "R": R(0, 1, 500),
    "E": E(),
    "C": C(1, 400),
    "I": I(1, 400),
    "O": O(1, 400),
    "L": L(0, 300),
    "S": S(10),
    "D": D(),
    "B": B(),
    "T": T(),
}
assert "".join(WHOLE) == KINDS

HEADER = H(3, 0, 2)  # 7 bytes
TABLE = HEADER + R(0, 1, 500) + R(1, 2, 400)  # 25 bytes
BUILT = TABLE + E()  # 26 bytes
NETWORK = "network 3 2"
WIDE = H(40, 0, 39) + R(0, 39, 1000) + E()  # 17 bytes: more junctions than a layer has places for chambers

# The table is full with 1,024 reaches, which end at byte 7 + 9 * 1024 = 9223.
FULL = H(256, 0, 255) + b"".join(R(k % 256, (k + 1 + k // 256) % 256, 1000 + k) for k in range(1024))


def ends_and_order():
    """The shortest inputs, and every kind at every stage where it has no place."""
    add("empty", b"", refused(12, 0, "reader"))
    add("header-only", HEADER, refused(12, 7, "reader"))
    add("header-end", HEADER + E(), "network 3 0")
    add("table-end", BUILT, NETWORK)

    for kind in KINDS:
        if kind != "H":
            add(f"first-{kind}", WHOLE[kind] + BUILT, refused(11, 0, "reader"))
    for byte in (0x68, 0xC8):  # a lowercase h; an H with its high bit set
        add(f"first-byte-{byte:02x}", bytes([byte]) + HEADER[1:] + E(), refused(11, 0, "reader"))

    for kind in "HCIOLSDBT":
        add(f"in-table-{kind}", TABLE + WHOLE[kind] + E(), refused(11, 25, "reader"))
    for kind in "HNRE":
        add(f"after-end-{kind}", BUILT + WHOLE[kind] + T(), refused(11, 26, "reader"))
    for kind in "HNRECIO":
        lines = (NETWORK, "tally 0", refused(11, 27, "reader"))
        add(f"after-command-{kind}", BUILT + T() + WHOLE[kind] + T(), *lines)

    # Among the entries: a C has a place after a C, but none after an I or an O.
    for kind in "NE":
        add(f"after-chamber-{kind}", BUILT + C(1, 400) + WHOLE[kind] + T(), refused(11, 33, "reader"))
    for kind in "HNREC":
        add(f"after-source-{kind}", BUILT + I(1, 400) + WHOLE[kind] + T(), refused(11, 33, "reader"))
    add("after-sink-C", BUILT + C(0, 400) + O(1, 400) + C(1, 400) + T(), refused(11, 40, "reader"))
    add("after-entries-and-command-I", BUILT + C(0, 400) + I(1, 400) + T() + I(1, 400) + T(),
        "network 6 4", "tally 0", refused(11, 41, "reader"))

    # A kind that has no place there is refused as such, even where its body is short as well.
    add("short-first-R", b"R", refused(11, 0, "reader"))
    add("short-in-table-H", TABLE + b"H", refused(11, 25, "reader"))
    add("short-after-end-N", BUILT + b"N\x00\x01W", refused(11, 26, "reader"))
    add("short-after-command-C", BUILT + D() + b"C", NETWORK, "drained", refused(11, 27, "reader"))
    add("short-after-command-I", BUILT + D() + I(1, 4)[:-1], NETWORK, "drained", refused(11, 27, "reader"))
    add("short-after-source-C", BUILT + I(1, 400) + C(1, 400)[:-1], refused(11, 33, "reader"))


def shapes():
    """What a header may state, and which refusal comes first."""
    add("junctions-0", H(0, 0, 1) + E(), refused(1, 0, "draft"))
    add("junctions-1", H(1, 0, 0) + E(), refused(1, 0, "draft"))
    add("junctions-2", H(2, 1, 0) + E(), "network 2 0")
    add("junctions-256", H(256, 0, 255) + E(), "network 256 0")
    add("junctions-257", H(257, 0, 256) + E(), refused(1, 0, "draft"))
    add("junctions-65535", H(65535, 0, 1) + E(), refused(1, 0, "draft"))
    add("intake-is-n", H(5, 5, 1) + E(), refused(2, 0, "draft"))
    add("outfall-is-n", H(5, 1, 5) + E(), refused(2, 0, "draft"))
    add("intake-is-outfall", H(5, 3, 3) + E(), refused(3, 0, "draft"))
    add("count-before-junction", H(1, 9, 9) + E(), refused(1, 0, "draft"))
    add("junction-before-same", H(5, 5, 5) + E(), refused(2, 0, "draft"))
    add("header-before-bad-byte", H(5, 5, 5) + b"\x00", refused(2, 0, "draft"))


def lays():
    """What a reach may be, and which refusal comes first."""
    add("tail-is-n", HEADER + R(3, 0, 1) + E(), refused(2, 7, "draft"))
    add("head-is-n", HEADER + R(0, 3, 1) + E(), refused(2, 7, "draft"))
    add("head-256", H(256, 0, 1) + R(255, 0, 1) + R(0, 256, 1) + E(), refused(2, 16, "draft"))
    add("tail-is-head", HEADER + R(1, 1, 1) + E(), refused(3, 7, "draft"))
    add("limit-0", HEADER + R(0, 1, 0) + E(), "network 3 1")
    add("limit-1000000", HEADER + R(0, 1, 1_000_000) + E(), "network 3 1")
    add("limit-1000001", HEADER + R(0, 1, 1_000_001) + E(), refused(5, 7, "draft"))
    add("limit-highest", HEADER + R(0, 1, 0xFFFF_FFFF) + E(), refused(5, 7, "draft"))
    add("lay-2-before-3", HEADER + R(3, 3, 1) + E(), refused(2, 7, "draft"))
    add("lay-2-before-5", HEADER + R(3, 0, 1_000_001) + E(), refused(2, 7, "draft"))
    add("lay-3-before-5", HEADER + R(2, 2, 1_000_001) + E(), refused(3, 7, "draft"))
    add("lay-before-bad-byte", HEADER + R(0, 0, 1) + b"\xff", refused(3, 7, "draft"))
    add("parallel-and-back", HEADER + R(0, 1, 5) + R(0, 1, 5) + R(1, 0, 5) + R(2, 0, 5) + E() + T(),
        "network 3 4", "tally 0")

    add("reaches-1024", FULL + E() + L(1023, 7) + L(1024, 7),
        "network 256 1024", "limit 1023 7", refused(4, 9231, "network"))
    add("reaches-1025", FULL + R(0, 1, 1) + E(), refused(8, 9223, "draft"))
    add("lay-2-before-8", FULL + R(256, 1, 1) + E(), refused(2, 9223, "draft"))
    add("lay-3-before-8", FULL + R(1, 1, 1) + E(), refused(3, 9223, "draft"))
    add("lay-5-before-8", FULL + R(0, 1, 1_000_001) + E(), refused(5, 9223, "draft"))


def names():
    """What a name may be, and which refusal comes first."""
    for byte in (0x21, 0x7E):
        add(f"name-byte-{byte:02x}", HEADER + N(1, bytes([byte] * 8)) + E(), "network 3 0")
    for byte in (0x20, 0x7F, 0xC1):
        add(f"name-first-{byte:02x}", HEADER + N(1, bytes([byte]) + b"ESTMAIN") + E(), refused(11, 7, "reader"))
    for byte in (0x20, 0x7F):
        add(f"name-last-{byte:02x}", HEADER + N(1, b"WESTMAI" + bytes([byte])) + E(), refused(11, 7, "reader"))
    add("name-of-last", HEADER + N(2, "TAILGATE") + E(), "network 3 0")
    add("name-of-n", HEADER + N(3, "TAILGATE") + E(), refused(2, 7, "reader"))
    add("name-of-256", H(256, 0, 1) + N(255, "TAILGATE") + N(256, "TAILGATE") + E(), refused(2, 18, "reader"))
    add("name-2-before-11", HEADER + N(3, " AILGATE") + E(), refused(2, 7, "reader"))
    add("name-12-before-2", HEADER + N(3, "TAILGATE")[:-1], refused(12, 7, "reader"))
    add("name-12-before-11", HEADER + N(1, " AILGATE")[:-1], refused(12, 7, "reader"))
    add("name-twice", HEADER + N(1, "WESTMAIN") + N(1, "EASTMAIN") + N(2, "EASTMAIN") + E(), "network 3 0")
    add("names-among-reaches", HEADER + R(0, 1, 5) + N(1, "WESTMAIN") + R(1, 2, 5) + N(0, "HEADGATE") + E(),
        "network 3 2")


def cuts_and_bad_bytes():
    """One small drawing, cut off at every byte, and with a bad byte after every record."""
    # For each record: its bytes, the lines it leads to.
    records = [
        (H(4, 0, 3), []),
        (N(2, "MILLRACE"), []),
        (R(0, 2, 800), []),
        (R(2, 3, 650), []),
        (E(), []),
        (C(2, 600), []),
        (O(3, 550), []),
        (I(0, None), []),
        (L(1, 700), ["network 7 5", "limit 1 700"]),
        (S(7), ["settled 1 550 yes"]),
        (T(), ["tally 550"]),
        (D(), ["drained"]),
    ]
    # The network line where the drawing ends after a record of this kind and no command was read.
    told = {"E": "network 4 2", "C": "network 5 3", "O": "network 7 4", "I": "network 7 5"}
    whole = b"".join(record for record, _ in records)
    place, printed, network = 0, [], None
    for index, (record, lines) in enumerate(records):
        # Cut off inside this record: 12 at its place. A cut at its start is the end of the record before.
        for inside in range(1, len(record)):
            add(f"cut-{place + inside:02}", whole[: place + inside], *printed, refused(12, place, "reader"))
        place += len(record)
        printed = printed + lines
        network = told.get(chr(record[0]), network)
        if network is None:
            add(f"cut-{place:02}", whole[:place], refused(12, place, "reader"))
        else:
            add(f"cut-{place:02}", whole[:place], *(printed or [network]))
        bad = b"Z" if index % 2 == 0 else b"\x00"
        add(f"bad-byte-at-{place:02}", whole[:place] + bad + whole[place:], *printed, refused(11, place, "reader"))


def commands():
    """Limits accepted and refused, and what follows a refused command."""
    add("limit-of-last", BUILT + L(1, 5), NETWORK, "limit 1 5")
    add("limit-of-m", BUILT + L(2, 5), NETWORK, refused(4, 26, "network"))
    add("limit-of-65535", BUILT + L(65535, 5), NETWORK, refused(4, 26, "network"))
    add("limit-of-none", HEADER + E() + L(0, 5), "network 3 0", refused(4, 8, "network"))
    add("set-limit-0", BUILT + L(0, 0), NETWORK, "limit 0 0")
    add("set-limit-1000000", BUILT + L(0, 1_000_000), NETWORK, "limit 0 1000000")
    add("set-limit-1000001", BUILT + L(0, 1_000_001), NETWORK, refused(5, 26, "network"))
    add("set-limit-highest", BUILT + L(1, 0xFFFF_FFFF), NETWORK, refused(5, 26, "network"))
    add("set-4-before-5", BUILT + L(2, 1_000_001), NETWORK, refused(4, 26, "network"))
    add("set-refused-then-more", BUILT + L(2, 5) + L(0, 1_000_001) + L(1, 10) + D() + L(9, 1) + T(),
        NETWORK, refused(4, 26, "network"), refused(5, 33, "network"), "limit 1 10", "drained",
        refused(4, 48, "network"), "tally 0")
    add("set-one-reach-often", BUILT + L(1, 10) + L(1, 1_000_000) + L(1, 0) + L(1, 1_000_001) + L(1, 10),
        NETWORK, "limit 1 10", "limit 1 1000000", "limit 1 0", refused(5, 47, "network"), "limit 1 10")
    add("set-refused-then-short", BUILT + L(2, 5) + L(0, 5)[:6],
        NETWORK, refused(4, 26, "network"), refused(12, 33, "reader"))
    add("set-refused-then-bad", BUILT + L(2, 5) + b"l" + T(),
        NETWORK, refused(4, 26, "network"), refused(11, 33, "reader"))
    add("drain-first", BUILT + D() + D() + T(), NETWORK, "drained", "drained", "tally 0")
    add("tally-first", BUILT + T() + T(), NETWORK, "tally 0", "tally 0")
    add("tally-outfall-first", H(3, 2, 0) + R(2, 1, 9) + R(1, 2, 9) + E() + T(), "network 3 2", "tally 0")


def chambers():
    """Where a chamber may be, and which refusal comes first."""
    # The table has junctions 0 to 2 and reaches 0 and 1. The chambers' reaches are 2, 3 and 4.
    add("chamber-at-intake", BUILT + C(0, 450) + L(2, 5) + L(3, 5),
        "network 4 3", "limit 2 5", refused(4, 40, "network"))
    add("chamber-at-outfall", BUILT + C(2, 450) + T() + L(2, 5), "network 4 3", "tally 0", "limit 2 5")
    add("chamber-at-both", BUILT + C(0, 450) + C(2, 350) + L(2, 5) + L(3, 6) + L(4, 7) + T(),
        "network 5 4", "limit 2 5", "limit 3 6", refused(4, 54, "network"), "tally 0")
    add("chamber-at-every", BUILT + C(2, 350) + C(0, 450) + C(1, 420) + L(0, 1) + L(1, 2) + L(2, 3) + L(3, 4) + L(4, 5)
        + L(5, 6), "network 6 5", "limit 0 1", "limit 1 2", "limit 2 3", "limit 3 4", "limit 4 5",
        refused(4, 82, "network"))
    add("chamber-at-tail-and-head", BUILT + C(0, 450) + C(1, 420) + L(0, 7) + L(0, 1_000_001) + L(3, 1_000_001),
        "network 5 4", "limit 0 7", refused(5, 47, "network"), refused(5, 54, "chambers"))
    add("chamber-no-command", BUILT + C(1, 450), "network 4 3")
    add("chamber-no-reach", HEADER + E() + C(1, 4) + L(0, 3) + L(1, 3),
        "network 4 1", "limit 0 3", refused(4, 22, "network"))

    add("chamber-of-n", BUILT + C(3, 4) + T(), refused(2, 26, "chambers"))
    add("chamber-of-last", H(256, 0, 1) + E() + C(255, 4) + T(), "network 257 1", "tally 0")
    add("chamber-of-twin", BUILT + C(1, 4) + C(3, 4) + T(), refused(2, 33, "chambers"))
    add("chamber-twice", BUILT + C(1, 4) + C(1, 5) + T(), refused(3, 33, "chambers"))
    add("chamber-twice-apart", BUILT + C(0, 4) + C(2, 4) + C(0, 4) + T(), refused(3, 40, "chambers"))

    add("chamber-limit-0", BUILT + C(1, 0) + L(2, 1), "network 4 3", "limit 2 1")
    add("chamber-limit-1000000", BUILT + C(1, 1_000_000) + T(), "network 4 3", "tally 0")
    add("chamber-limit-1000001", BUILT + C(1, 1_000_001) + T(), refused(5, 26, "chambers"))
    add("chamber-limit-highest", BUILT + C(1, 0xFFFF_FFFF) + T(), refused(5, 26, "chambers"))
    add("chamber-2-before-5", BUILT + C(3, 1_000_001), refused(2, 26, "chambers"))
    add("chamber-3-before-5", BUILT + C(1, 4) + C(1, 1_000_001), refused(3, 33, "chambers"))

    # 32 chambers end at byte 17 + 7 * 32 = 241. Their reaches are 1 to 32.
    most = WIDE + b"".join(C(junction, 100 + junction) for junction in range(32))
    add("chambers-32", most + L(32, 5) + L(33, 5), "network 72 33", "limit 32 5", refused(4, 248, "network"))
    add("chambers-33", most + C(32, 5) + T(), refused(8, 241, "chambers"))
    add("chamber-2-before-8", most + C(40, 5) + T(), refused(2, 241, "chambers"))
    add("chamber-3-before-8", most + C(31, 5) + T(), refused(3, 241, "chambers"))
    add("chamber-5-before-8", most + C(32, 1_000_001) + T(), refused(5, 241, "chambers"))


def gathering():
    """Where a source or a sink may be, and which refusal comes first. The same rules hold for both kinds."""
    for word, entry, other in (("source", I, O), ("sink", O, I)):
        add(f"{word}-alone", BUILT + entry(1, 400) + L(2, 5) + L(3, 5),
            "network 5 3", "limit 2 5", refused(4, 40, "network"))
        add(f"{word}-of-last", BUILT + entry(2, 400), "network 5 3")
        add(f"{word}-of-n", BUILT + entry(3, 400) + T(), refused(2, 26, "gathering"))
        add(f"{word}-limit-1000000", BUILT + entry(1, 1_000_000) + T(), "network 5 3", "tally 0")
        add(f"{word}-limit-1000001", BUILT + entry(1, 1_000_001) + T(), refused(5, 26, "gathering"))
        add(f"{word}-limit-fffffffe", BUILT + entry(1, 0xFFFF_FFFE) + T(), refused(5, 26, "gathering"))
        add(f"{word}-limit-none", BUILT + entry(1, None) + L(2, 0) + L(2, 1_000_001),
            "network 5 3", "limit 2 0", refused(5, 40, "gathering"))
        add(f"{word}-2-before-5", BUILT + entry(3, 1_000_001) + T(), refused(2, 26, "gathering"))

        # With the first entry junctions 3 and 4 appear, the gathering's own. No entry may name them.
        add(f"{word}-of-own-intake", BUILT + I(1, 400) + entry(3, 400) + T(), refused(2, 33, "gathering"))
        add(f"{word}-of-own-outfall", BUILT + O(1, 400) + entry(4, 400) + T(), refused(2, 33, "gathering"))

        # 16 of a kind end at byte 26 + 7 * 16 = 138. One of the other kind takes no place of theirs.
        most = BUILT + b"".join(entry(k % 3, 100 + k) for k in range(16))
        add(f"{word}s-16", most + other(0, 400) + L(18, 5) + L(19, 5),
            "network 5 19", "limit 18 5", refused(4, 152, "network"))
        add(f"{word}s-17", most + entry(0, 400) + T(), refused(8, 138, "gathering"))
        add(f"{word}-2-before-8", most + entry(3, 400) + T(), refused(2, 138, "gathering"))
        add(f"{word}-5-before-8", most + entry(0, 1_000_001) + T(), refused(5, 138, "gathering"))

        # Over a chamber at junction 1: the junction and its twin, 3, are both junctions of the network below.
        add(f"{word}-at-chambered", BUILT + C(1, 450) + entry(1, 400) + L(2, 5) + L(3, 6) + L(4, 7),
            "network 6 4", "limit 2 5", "limit 3 6", refused(4, 54, "network"))
        add(f"{word}-at-twin", BUILT + C(1, 450) + entry(3, 400) + L(2, 1_000_001) + L(3, 1_000_001) + T(),
            "network 6 4", refused(5, 40, "chambers"), refused(5, 47, "gathering"), "tally 0")
        add(f"{word}-over-twin", BUILT + C(1, 450) + entry(3, 400) + entry(4, 400) + T(), refused(2, 40, "gathering"))

    add("source-and-sink-16", BUILT + b"".join(I(k % 3, k) + O(k % 3, None) for k in range(16)) + L(33, 8) + L(34, 8),
        "network 5 34", "limit 33 8", refused(4, 257, "network"))
    add("one-junction-often", BUILT + I(1, 5) + I(1, 6) + O(1, 7) + O(1, None) + L(2, 1) + L(5, 2) + L(6, 3),
        "network 5 6", "limit 2 1", "limit 5 2", refused(4, 68, "network"))


def stacks():
    """Chambers and gathering together: which reach is whose, and what follows a refused entry."""
    # Reach 2 is the chamber's, 3 the source's feeder, 4 and 5 the sinks' feeders, though the source came last.
    late = BUILT + C(1, 450) + O(2, 300) + O(3, None) + I(0, 350)
    add("source-after-sinks", late + L(3, 1) + L(4, 2) + L(5, 3) + L(6, 4),
        "network 6 6", "limit 3 1", "limit 4 2", "limit 5 3", refused(4, 75, "network"))
    high = 1_000_001
    add("who-refuses-which", late + L(1, high) + L(2, high) + L(3, high) + L(4, high) + L(5, high) + L(6, high),
        "network 6 6", refused(5, 54, "network"), refused(5, 61, "chambers"), refused(5, 68, "gathering"),
        refused(5, 75, "gathering"), refused(5, 82, "gathering"), refused(4, 89, "network"))
    add("each-limit-highest", late + b"".join(L(k, 1_000_000) for k in range(6)) + D() + T(),
        "network 6 6", *[f"limit {k} 1000000" for k in range(6)], "drained", "tally 0")
    add("stack-no-command", late, "network 6 6")

    # With no chamber the feeders come right after the table: reach 2 is the source's, reach 3 the sink's.
    add("sink-before-source", BUILT + O(2, 300) + I(0, 350) + L(2, high) + L(3, 8) + L(4, 8),
        "network 5 4", refused(5, 40, "gathering"), "limit 3 8", refused(4, 54, "network"))

    # A refused entry ends the program, and comes before all that follows it.
    add("chamber-before-bad-byte", BUILT + C(3, 400) + b"\x00", refused(2, 26, "chambers"))
    add("source-before-bad-byte", BUILT + C(1, 400) + I(4, 400) + b"\xff", refused(2, 33, "gathering"))
    add("sink-before-short", BUILT + O(1, high) + I(0, 400)[:-1], refused(5, 26, "gathering"))
    add("chamber-before-source", BUILT + C(1, 400) + C(1, 400) + I(9, 400) + T(), refused(3, 33, "chambers"))
    add("chamber-12-before-2", BUILT + C(9, high)[:-1], refused(12, 26, "reader"))
    add("source-12-before-2", BUILT + I(9, high)[:-1], refused(12, 26, "reader"))

    # The largest network that a drawing can describe. Its entries end at byte 9224 + 7 * 64 = 9672.
    largest = FULL + E() + b"".join(C(8 * k, 1000 * k) for k in range(32))
    largest += b"".join(O(k, None) + I(255 - k, 500 + k) for k in range(16))
    add("largest", largest + L(1023, high) + L(1024, high) + L(1055, high) + L(1056, high) + L(1087, high) + L(1088, 5)
        + L(1087, 5) + T(), "network 290 1088", refused(5, 9672, "network"), refused(5, 9679, "chambers"),
        refused(5, 9686, "chambers"), refused(5, 9693, "gathering"), refused(5, 9700, "gathering"),
        refused(4, 9707, "network"), "limit 1087 5", "tally 0")


# Two mains and a link between them: routes 0 6, then 2 8, then 0 4 8, which push 2, 2 and 1 litres.
MAINS = H(4, 0, 3) + R(0, 1, 3) + R(0, 2, 2) + R(1, 2, 1) + R(1, 3, 2) + R(2, 3, 3) + E()  # 53 bytes
MAINS_NETWORK = "network 4 5"

# Every limit 1: routes 0 2 4, and then 10 12 3 6 8, which goes back along reach 1.
CROSSED = H(6, 0, 5) + R(0, 1, 1) + R(1, 2, 1) + R(2, 5, 1) + R(1, 3, 1) + R(3, 5, 1) + R(0, 4, 1) + R(4, 2, 1) + E()


def settlings():
    """Settlings: with each budget, one after another, over layers, and among other commands."""
    add("settle-10", MAINS + S(10) + T(), MAINS_NETWORK, "settled 3 5 yes", "tally 5")
    add("settle-0", MAINS + S(0) + T(), MAINS_NETWORK, "settled 0 0 no", "tally 0")
    add("settle-1", MAINS + S(1) + T(), MAINS_NETWORK, "settled 1 2 no", "tally 2")
    add("settle-2", MAINS + S(2) + T(), MAINS_NETWORK, "settled 2 4 no", "tally 4")
    add("settle-3", MAINS + S(3) + T(), MAINS_NETWORK, "settled 3 5 yes", "tally 5")
    add("settle-highest", MAINS + S(0xFFFF_FFFF) + T(), MAINS_NETWORK, "settled 3 5 yes", "tally 5")
    add("settle-by-and-by", MAINS + S(1) + S(1) + S(1) + S(1) + S(0) + T(), MAINS_NETWORK, "settled 1 2 no",
        "settled 1 2 no", "settled 1 1 yes", "settled 0 0 yes", "settled 0 0 yes", "tally 5")
    add("settle-drain-settle", MAINS + S(9) + D() + T() + S(2) + D() + S(9) + T(), MAINS_NETWORK, "settled 3 5 yes",
        "drained", "tally 0", "settled 2 4 no", "drained", "settled 3 5 yes", "tally 5")
    add("settle-crossed", CROSSED + S(1) + S(9) + T(), "network 6 7", "settled 1 1 no", "settled 1 1 yes", "tally 2")
    add("settle-no-reach", HEADER + E() + S(0) + S(9), "network 3 0", "settled 0 0 yes", "settled 0 0 yes")
    add("settle-no-route", HEADER + R(1, 0, 9) + R(2, 1, 9) + E() + S(9) + T(), "network 3 2", "settled 0 0 yes",
        "tally 0")
    add("settle-limit-0", HEADER + R(0, 1, 0) + R(1, 2, 9) + E() + S(9), "network 3 2", "settled 0 0 yes")
    add("settle-highest-limits", HEADER + R(0, 2, 1_000_000) + R(0, 2, 1_000_000) + E() + S(9) + T(), "network 3 2",
        "settled 2 2000000 yes", "tally 2000000")

    # A limit below the carried amount is refused with 6; one equal to it is not; a raised one opens a route again.
    add("limit-below-carried", MAINS + S(9) + L(0, 2) + L(0, 3) + L(0, 4) + S(9) + T(), MAINS_NETWORK,
        "settled 3 5 yes", refused(6, 58, "network"), "limit 0 3", "limit 0 4", "settled 0 0 yes", "tally 5")
    add("limit-raised", MAINS + S(9) + L(3, 5) + L(0, 6) + S(9) + T(), MAINS_NETWORK,
        "settled 3 5 yes", "limit 3 5", "limit 0 6", "settled 1 3 yes", "tally 8")
    add("limit-5-before-6", MAINS + S(9) + L(0, 1_000_001), MAINS_NETWORK, "settled 3 5 yes",
        refused(5, 58, "network"))
    add("settle-in-the-middle", MAINS + L(1, 1) + S(1) + T() + L(3, 2) + S(1) + D() + L(4, 2) + S(8) + T(),
        MAINS_NETWORK, "limit 1 1", "settled 1 2 no", "tally 2", "limit 3 2", "settled 1 1 no", "drained",
        "limit 4 2", "settled 3 4 yes", "tally 4")

    # Over layers: the chamber at junction 2 lets 2 litres pass; feeders bring 3 to junction 0 and take what comes.
    add("settle-chamber", MAINS + C(2, 2) + S(9) + T() + L(5, 3) + S(9) + T(), "network 5 6", "settled 2 4 yes", "tally 4",
        "limit 5 3", "settled 1 1 yes", "tally 5")
    add("settle-feeders", MAINS + I(0, 3) + O(3, None) + S(9) + T() + L(5, 2), "network 6 7", "settled 2 3 yes", "tally 3",
        refused(6, 73, "gathering"))
    add("settle-chamber-6", MAINS + C(2, 2) + S(9) + L(5, 1), "network 5 6", "settled 2 4 yes", refused(6, 65, "chambers"))
    add("settle-many-sources", MAINS + I(0, None) + I(1, 1) + I(2, 1) + O(3, 4) + O(2, 2) + S(2) + S(90) + T())

    # A settling that is cut off, and one that comes too early.
    add("settle-short", MAINS + S(10)[:-1], refused(12, 53, "reader"))
    add("settle-late-short", MAINS + D() + S(10)[:-1], MAINS_NETWORK, "drained", refused(12, 54, "reader"))
    add("settle-then-bad", MAINS + S(10) + b"s", MAINS_NETWORK, "settled 3 5 yes", refused(11, 58, "reader"))


def bottlenecks():
    """Bottlenecks: while a route exists, after settlings, and whenever the near side is another."""
    # B is a command. It ends nothing, whether it is refused or not.
    first = refused(10, 26, "network")
    add("bottleneck-first", BUILT + B() + T(), NETWORK, first, "tally 0")
    add("bottleneck-after-entries", BUILT + C(1, 4) + I(0, 4) + B() + T(), "network 6 4",
        "bottleneck 0", "tally 0")
    add("bottleneck-after-chamber", BUILT + C(1, 4) + B() + T(), "network 4 3", refused(10, 33, "network"), "tally 0")
    add("bottleneck-late", BUILT + L(0, 8) + B() + T(), NETWORK, "limit 0 8", refused(10, 33, "network"), "tally 0")
    add("bottleneck-only", BUILT + B(), NETWORK, first)
    add("bottleneck-only-answered", HEADER + E() + B(), "network 3 0", "bottleneck 0")
    add("bottleneck-then-bad", BUILT + B() + b"b", NETWORK, first, refused(11, 27, "reader"))
    add("bottleneck-then-zero", BUILT + B() + b"\x00", NETWORK, first, refused(11, 27, "reader"))
    add("bottleneck-then-short", BUILT + B() + L(0, 5)[:-1], NETWORK, first, refused(12, 27, "reader"))
    for kind in "HNRECIO":
        add(f"bottleneck-then-{kind}", BUILT + B() + WHOLE[kind] + T(), NETWORK, first, refused(11, 27, "reader"))

    # MAINS settled: reaches 0 and 1 take 3 and 2 litres from junction 0, and are full. Bytes: 53, and 5 for an S.
    whole = ["bottleneck 5", "across 0 0 1 3", "across 1 0 2 2"]
    yes = "settled 3 5 yes"
    add("bottleneck-settled", MAINS + S(10) + B() + T(), MAINS_NETWORK, yes, *whole, "tally 5")
    add("bottleneck-at-end", MAINS + S(10) + B(), MAINS_NETWORK, yes, *whole)
    add("bottleneck-twice", MAINS + S(10) + B() + B() + T() + B(), MAINS_NETWORK, yes, *whole, *whole, "tally 5", *whole)
    add("bottleneck-bad-after", MAINS + S(10) + B() + b"Z", MAINS_NETWORK, yes, *whole, refused(11, 59, "reader"))
    add("bottleneck-short-after", MAINS + S(10) + B() + S(10)[:-2], MAINS_NETWORK, yes, *whole,
        refused(12, 59, "reader"))
    add("bottleneck-entry-after", MAINS + S(10) + B() + C(1, 5), MAINS_NETWORK, yes, *whole, refused(11, 59, "reader"))
    add("bottleneck-before-and-after", MAINS + B() + S(10) + B(), MAINS_NETWORK, refused(10, 53, "network"), yes, *whole)
    add("bottleneck-just-enough", MAINS + S(3) + B(), MAINS_NETWORK, yes, *whole)
    add("bottleneck-not-finished", MAINS + S(2) + B() + T(), MAINS_NETWORK, "settled 2 4 no",
        refused(10, 58, "network"), "tally 4")
    add("bottleneck-budget-0", MAINS + S(0) + B() + S(9) + B(), MAINS_NETWORK, "settled 0 0 no",
        refused(10, 58, "network"), yes, *whole)
    add("bottleneck-by-and-by", MAINS + S(1) + B() + S(1) + B() + S(1) + B(), MAINS_NETWORK, "settled 1 2 no",
        refused(10, 58, "network"), "settled 1 2 no", refused(10, 64, "network"), "settled 1 1 yes", *whole)
    add("bottleneck-drained", MAINS + S(9) + B() + D() + B() + S(9) + B(), MAINS_NETWORK, yes, *whole, "drained",
        refused(10, 60, "network"), yes, *whole)
    add("bottleneck-among-refused", MAINS + S(9) + L(0, 2) + B() + L(5, 1) + B() + L(0, 1_000_001) + T(), MAINS_NETWORK,
        yes, refused(6, 58, "network"), *whole, refused(4, 66, "network"), *whole, refused(5, 74, "network"), "tally 5")

    # After limit changes: the near side is another, or a route exists again.
    add("bottleneck-limit-same", MAINS + S(9) + L(0, 3) + B(), MAINS_NETWORK, yes, "limit 0 3", *whole)
    add("bottleneck-limit-raised", MAINS + S(9) + L(0, 6) + B(), MAINS_NETWORK, yes, "limit 0 6", "bottleneck 5",
        "across 1 0 2 2", "across 2 1 2 1", "across 3 1 3 2")
    add("bottleneck-by-step-back", MAINS + S(9) + L(1, 9) + B(), MAINS_NETWORK, yes, "limit 1 9", "bottleneck 5",
        "across 3 1 3 2", "across 4 2 3 3")
    add("bottleneck-limit-beyond", MAINS + S(9) + L(3, 9) + L(4, 9) + B(), MAINS_NETWORK, yes, "limit 3 9", "limit 4 9",
        *whole)
    add("bottleneck-route-again", MAINS + S(9) + B() + L(3, 9) + L(0, 6) + B() + S(1) + B() + T(), MAINS_NETWORK, yes,
        *whole, "limit 3 9", "limit 0 6", refused(10, 73, "network"), "settled 1 3 yes", "bottleneck 8",
        "across 0 0 1 6", "across 1 0 2 2", "tally 8")
    add("bottleneck-limits-lowered", MAINS + L(3, 1) + L(4, 1) + S(9) + B(), MAINS_NETWORK, "limit 3 1", "limit 4 1",
        "settled 2 2 yes", "bottleneck 2", "across 3 1 3 1", "across 4 2 3 1")
    add("bottleneck-other-order", MAINS + L(0, 9) + S(1) + D() + L(0, 3) + S(1) + S(9) + B(), MAINS_NETWORK, "limit 0 9",
        "settled 1 2 no", "drained", "limit 0 3", "settled 1 2 no", "settled 2 3 yes", *whole)

    # Every limit 1, and a route that goes back: the near side is junction 0 alone.
    add("bottleneck-crossed", CROSSED + S(9) + B() + T(), "network 6 7", "settled 2 2 yes", "bottleneck 2",
        "across 0 0 1 1", "across 5 0 4 1", "tally 2")
    add("bottleneck-crossed-1", CROSSED + S(1) + B(), "network 6 7", "settled 1 1 no", refused(10, 76, "network"))


def cuts():
    """Near sides of many forms. What is near is told by the open steps from the intake, and by nothing else."""
    # Of cuts of equal sum the bottleneck is the nearest to the intake, though no open step leads to the outfall from
    # junctions 1 and 2 either.
    add("cut-nearest-of-two", H(4, 0, 3) + R(0, 1, 3) + R(1, 2, 9) + R(2, 3, 3) + E() + S(9) + B(), "network 4 3",
        "settled 1 3 yes", "bottleneck 3", "across 0 0 1 3")
    add("cut-nearest-of-three", H(4, 0, 3) + R(2, 3, 7) + R(1, 2, 7) + R(0, 1, 7) + E() + S(9) + B(), "network 4 3",
        "settled 1 7 yes", "bottleneck 7", "across 2 0 1 7")
    add("cut-in-the-middle", H(5, 0, 4) + R(0, 1, 9) + R(1, 2, 8) + R(2, 3, 3) + R(3, 4, 3) + E() + S(9) + B(),
        "network 5 4", "settled 1 3 yes", "bottleneck 3", "across 2 2 3 3")
    add("cut-at-outfall", H(4, 0, 3) + R(0, 1, 9) + R(1, 2, 8) + R(2, 3, 3) + E() + S(9) + B(), "network 4 3",
        "settled 1 3 yes", "bottleneck 3", "across 2 2 3 3")
    # A dead end is near where it is reached, and an island is far; a reach from far to near does not cross.
    add("cut-dead-end", H(4, 0, 3) + R(0, 1, 9) + R(0, 3, 2) + R(1, 2, 5) + E() + S(9) + B(), "network 4 3",
        "settled 1 2 yes", "bottleneck 2", "across 1 0 3 2")
    add("cut-island", H(5, 0, 4) + R(0, 1, 9) + R(1, 4, 2) + R(2, 3, 5) + R(3, 1, 5) + E() + S(9) + B(), "network 5 4",
        "settled 1 2 yes", "bottleneck 2", "across 1 1 4 2")
    add("cut-back", HEADER + R(0, 1, 9) + R(1, 0, 5) + R(1, 2, 4) + R(2, 1, 8) + R(2, 0, 8) + E() + S(9) + B(),
        "network 3 5", "settled 1 4 yes", "bottleneck 4", "across 2 1 2 4")
    add("cut-parallel", HEADER + R(0, 1, 9) + R(1, 2, 1) + R(1, 2, 2) + R(2, 1, 7) + R(1, 2, 1) + E() + S(9) + B() + T(),
        "network 3 5", "settled 3 4 yes", "bottleneck 4", "across 1 1 2 1", "across 2 1 2 2", "across 4 1 2 1",
        "tally 4")
    add("cut-intake-last", H(4, 3, 0) + R(1, 0, 2) + R(2, 0, 3) + R(3, 1, 3) + R(3, 2, 2) + R(1, 2, 1) + E() + S(9) + B(),
        "network 4 5", "settled 3 5 yes", "bottleneck 5", "across 2 3 1 3", "across 3 3 2 2")
    # A crossing reach of limit 0 counts too. It adds nothing to the sum.
    add("cut-limit-0", HEADER + R(0, 1, 0) + R(1, 2, 9) + E() + B() + T(), "network 3 2", "bottleneck 0", "across 0 0 1 0",
        "tally 0")
    add("cut-limits-0", HEADER + R(0, 1, 0) + R(0, 2, 0) + R(1, 2, 9) + R(0, 1, 0) + E() + B(), "network 3 4",
        "bottleneck 0", "across 0 0 1 0", "across 1 0 2 0", "across 3 0 1 0")
    add("cut-limit-0-among-others", HEADER + R(0, 1, 4) + R(0, 2, 0) + R(1, 2, 9) + E() + S(9) + B(), "network 3 3",
        "settled 1 4 yes", "bottleneck 4", "across 0 0 1 4", "across 1 0 2 0")
    add("cut-limit-set-to-0", BUILT + L(1, 0) + B() + L(1, 1) + B(), NETWORK, "limit 1 0", "bottleneck 0",
        "across 1 1 2 0", "limit 1 1", refused(10, 41, "network"))
    add("cut-nothing-near", HEADER + R(1, 0, 9) + R(2, 1, 9) + E() + B() + S(9) + B(), "network 3 2", "bottleneck 0",
        "settled 0 0 yes", "bottleneck 0")
    # The greatest sum of a table: 1,024 reaches that cross.
    widest = H(2, 0, 1) + R(0, 1, 1_000_000) * 1024 + E()
    add("cut-widest", widest + S(1024) + B() + T(), "network 2 1024", "settled 1024 1024000000 yes",
        "bottleneck 1024000000", *[f"across {k} 0 1 1000000" for k in range(1024)], "tally 1024000000")
    # Water that goes round through the intake: what is delivered is the sum of the bottleneck all the same.
    add("cut-round", H(4, 1, 2) + R(0, 1, 5) + R(1, 3, 5) + R(3, 0, 5) + R(3, 2, 4) + E() + S(9) + B() + T(),
        "network 4 4", "settled 1 4 yes", "bottleneck 4", "across 3 3 2 4", "tally 4")


def mains(*names):
    """MAINS with names: right after the header, settled, and with its bottleneck."""
    return MAINS[:7] + b"".join(names) + MAINS[7:] + S(9) + B()


def across_names():
    """Which name is shown for a junction, and that it is."""
    def across(at, one, other):
        return MAINS_NETWORK, "settled 3 5 yes", "bottleneck 5", f"across 0 {at} {one} 3", f"across 1 {at} {other} 2"

    add("named-none", mains(), *across("0", "1", "2"))
    add("named-intake", mains(N(0, "HEADGATE")), *across("HEADGATE", "1", "2"))
    add("named-head", mains(N(2, "EASTMAIN")), *across("0", "1", "EASTMAIN"))
    add("named-not-shown", mains(N(3, "TAILGATE")), *across("0", "1", "2"))
    add("named-all", mains(N(3, "TAILGATE"), N(1, "WESTMAIN"), N(0, "HEADGATE"), N(2, "EASTMAIN")),
        *across("HEADGATE", "WESTMAIN", "EASTMAIN"))
    add("named-twice", mains(N(1, "WESTMAIN"), N(1, "EASTMAIN")), *across("0", "WESTMAIN", "2"))
    add("named-twice-same", mains(N(1, "WESTMAIN"), N(1, "WESTMAIN")), *across("0", "WESTMAIN", "2"))
    add("named-often", mains(N(0, "FIRSTONE"), N(1, "WESTMAIN"), N(0, "SECONDLY"), N(0, "THIRDONE"), N(1, "EASTMAIN")),
        *across("FIRSTONE", "WESTMAIN", "2"))
    add("named-alike", mains(N(1, "MAINDUCT"), N(2, "MAINDUCT")), *across("0", "MAINDUCT", "MAINDUCT"))
    add("named-like-numbers", mains(N(0, "00000003"), N(1, "99999999"), N(2, "-0000001")),
        *across("00000003", "99999999", "-0000001"))
    add("named-by-signs", mains(N(0, "!!!!!!!!"), N(1, "~~~~~~~~"), N(2, "{}%\\\"'`<")),
        *across("!!!!!!!!", "~~~~~~~~", "{}%\\\"'`<"))
    every = bytes(range(0x21, 0x7F)) + b"!!"  # every byte that a name may have: 94, and 2 more
    each = [every[8 * k : 8 * k + 8] for k in range(12)]
    add("named-by-every-byte", H(14, 0, 13) + b"".join(N(k + 1, each[k]) + R(0, k + 1, 0) for k in range(12)) + E()
        + B(), "network 14 12", "bottleneck 0", *[f"across {k} 0 {each[k].decode()} 0" for k in range(12)])
    add("named-after-reaches", MAINS[:-1] + N(0, "HEADGATE") + N(2, "EASTMAIN") + E() + S(9) + B(),
        *across("HEADGATE", "1", "EASTMAIN"))
    add("named-among-reaches", MAINS[:16] + N(2, "EASTMAIN") + MAINS[16:34] + N(2, "CROSSCUT") + MAINS[34:] + S(9) + B(),
        *across("0", "1", "EASTMAIN"))
    add("named-and-refused", MAINS[:7] + N(0, "HEADGATE") + MAINS[7:] + B() + S(9) + B(), MAINS_NETWORK,
        refused(10, 64, "network"), *across("HEADGATE", "1", "2")[1:])
    add("named-255", H(256, 255, 0) + N(255, "HEADGATE") + N(0, "TAILGATE") + R(255, 0, 6) + R(255, 254, 0) + E() + S(9)
        + B(), "network 256 2", "settled 1 6 yes", "bottleneck 6", "across 0 HEADGATE TAILGATE 6",
        "across 1 HEADGATE 254 0")

    # 5,120 names for 256 junctions: of each junction the first counts.
    often = b"".join(N(k % 256, f"GATE{k:04}") for k in range(5120))
    add("named-5120", H(256, 0, 255) + often + R(0, 7, 0) + R(0, 255, 5) + E() + S(9) + B(), "network 256 2",
        "settled 1 5 yes", "bottleneck 5", "across 0 GATE0000 GATE0007 0", "across 1 GATE0000 GATE0255 5")


def across_layers():
    """Reaches of chambers and feeders that cross; twins, and the two junctions of the gathering, have no name."""
    named = MAINS[:7] + N(0, "HEADGATE") + N(1, "WESTMAIN") + N(2, "EASTMAIN") + N(3, "TAILGATE") + MAINS[7:]  # 97 bytes

    # One chamber: junction 4 is its twin, reach 5 its own.
    add("across-chamber", named + C(2, 2) + S(9) + B() + T(), "network 5 6", "settled 2 4 yes", "bottleneck 4",
        "across 3 WESTMAIN TAILGATE 2", "across 5 EASTMAIN 4 2", "tally 4")
    add("across-from-twin", named + C(0, 9) + S(9) + B(), "network 5 6", "settled 3 5 yes", "bottleneck 5",
        "across 0 4 WESTMAIN 3", "across 1 4 EASTMAIN 2")
    add("across-to-chambered", named + C(1, 9) + S(9) + B(), "network 5 6", "settled 3 5 yes", "bottleneck 5",
        "across 0 HEADGATE WESTMAIN 3", "across 1 HEADGATE EASTMAIN 2")
    add("across-chamber-at-intake", named + C(0, 4) + S(9) + B() + L(5, 1_000_000) + B() + S(9) + B(), "network 5 6",
        "settled 2 4 yes", "bottleneck 4", "across 5 HEADGATE 4 4", "limit 5 1000000", refused(10, 117, "network"),
        "settled 1 1 yes", "bottleneck 5", "across 0 4 WESTMAIN 3", "across 1 4 EASTMAIN 2")
    add("across-chamber-at-outfall", named + C(3, 4) + S(9) + B(), "network 5 6", "settled 2 4 yes", "bottleneck 4",
        "across 5 TAILGATE 4 4")
    add("across-chamber-limit-0", named + C(0, 0) + B(), "network 5 6", "bottleneck 0", "across 5 HEADGATE 4 0")
    add("across-two-chambers", named + C(2, 1) + C(1, 1) + S(9) + B(), "network 6 7", "settled 2 2 yes", "bottleneck 2",
        "across 5 EASTMAIN 4 1", "across 6 WESTMAIN 5 1")
    add("across-all-chambers", named + C(3, 9) + C(0, 9) + C(1, 2) + C(2, 9) + S(9) + B(), "network 8 9",
        "settled 2 4 yes", "bottleneck 4", "across 1 5 EASTMAIN 2", "across 7 WESTMAIN 6 2")

    # With an entry of the gathering, junctions 4 and 5 are its own. The reaches of sources come before those of sinks.
    add("across-source", named + I(0, 3) + O(3, None) + S(9) + B() + T(), "network 6 7", "settled 2 3 yes", "bottleneck 3",
        "across 5 4 HEADGATE 3", "tally 3")
    add("across-sink", named + O(3, 2) + I(0, None) + S(9) + B(), "network 6 7", "settled 1 2 yes", "bottleneck 2",
        "across 6 TAILGATE 5 2")
    add("across-sources", named + I(2, 2) + I(1, 1) + I(1, 1) + O(3, None) + S(9) + B(), "network 6 9",
        "settled 3 4 yes", "bottleneck 4", "across 5 4 EASTMAIN 2", "across 6 4 WESTMAIN 1", "across 7 4 WESTMAIN 1")
    add("across-no-sink", named + I(0, None) + B() + S(1) + B(), "network 6 6", "bottleneck 0", "settled 0 0 yes",
        "bottleneck 0")
    add("across-no-source", named + O(3, 6) + B(), "network 6 6", "bottleneck 0")
    add("across-unstated", named + I(0, None) + O(0, None) + S(9) + B() + T(), "network 6 7", "settled 1 1000000 yes",
        "bottleneck 1000000", "across 5 4 HEADGATE 1000000", "tally 1000000")
    add("across-feeder-0", named + I(0, 0) + I(1, 1) + O(3, 5) + S(9) + B(), "network 6 8", "settled 1 1 yes",
        "bottleneck 1", "across 5 4 HEADGATE 0", "across 6 4 WESTMAIN 1")

    # Both: the twin is junction 4, the gathering's own are 5 and 6. A feeder may lead to the twin or from it.
    add("across-feeder-to-twin", named + C(2, 9) + I(4, 5) + O(3, 8) + S(9) + B(), "network 7 8", "settled 1 3 yes",
        "bottleneck 3", "across 4 4 TAILGATE 3")
    add("across-feeder-to-twin-first", named + C(2, 9) + I(4, 2) + O(3, 8) + S(9) + B(), "network 7 8", "settled 1 2 yes",
        "bottleneck 2", "across 6 5 4 2")
    add("across-feeder-from-twin", named + C(2, 9) + I(0, 8) + O(4, 1) + S(9) + B(), "network 7 8", "settled 1 1 yes",
        "bottleneck 1", "across 7 4 6 1")
    add("across-everything", named + C(2, 2) + I(0, 4) + I(2, None) + O(3, 3) + O(1, 1) + S(99) + B() + T())
    add("across-most-feeders", named + b"".join(I(k % 4, k) + O(3 - k % 4, k + 1) for k in range(16)) + S(999) + B() + T())
    add("across-most-chambers", WIDE[:-1] + N(0, "HEADGATE") + b"".join(R(k, k + 1, 50) for k in range(39)) + E()
        + b"".join(C(k, 100 - k) for k in range(32)) + S(99) + B() + L(0, 3_000) + B() + S(9) + B())


def examples():
    """The drawings in examples/."""
    for make in (make_examples.headworks, make_examples.refused, make_examples.bottleneck, make_examples.district):
        add(f"example-{make.__name__}", make())


def sizes():
    """Inputs of the greatest length that is read, and one byte over it."""
    # Header 7, 1,024 reaches 9,216, 5,118 names 56,298, end 1, one L 7, seven commands of one byte: 65,536 in all.
    parts = [H(256, 0, 255)]
    for k in range(5118):
        parts.append(N(k % 256, f"GATE{k:04}"))
        if k < 1024:
            parts.append(R(k % 256, (k + 1) % 256, k))
    parts.append(E())
    table = b"".join(parts)
    commands_of_full = L(1023, 1_000_000) + T() + D() + T() + D() + T() + D() + T()
    full = table + commands_of_full
    assert len(table) == 65_522 and len(full) == MAX_INPUT
    printed = ["network 256 1024", "limit 1023 1000000"] + ["tally 0", "drained"] * 3 + ["tally 0"]
    add("bytes-65536", full, *printed)
    add("bytes-65537", full + T(), refused(13, 0, "reader"))
    add("bytes-65536-short", full[:-3] + L(0, 5)[:3], *printed[:-3], refused(12, 65_533, "reader"))
    add("bytes-65537-bad", bytes(65_537), refused(13, 0, "reader"))


class Dice:
    """A seeded source of numbers that is the same under every version of Python."""

    def __init__(self, seed):
        self.state = seed
        for _ in range(4):
            self.below(2)

    def below(self, bound):
        self.state = (self.state * 6364136223846793005 + 1442695040888963407) % 2**64
        return (self.state >> 33) % bound

    def of(self, choices):
        return choices[self.below(len(choices))]


def two_of(dice, n):
    """Two different junctions below n."""
    first = dice.below(n)
    return first, (first + 1 + dice.below(n - 1)) % n


def sound_limit(dice):
    return dice.of([0, 1, 999_999, 1_000_000, dice.below(1_000_001)])


def random_entries(dice, n):
    """Entries over a table of n junctions. Now and then one is refused: no junction, one taken before, a high limit."""
    records = []
    first, chambers = dice.below(n), dice.below(min(n, 5))
    for e in range(chambers):
        fault = dice.below(24)
        junction = {0: n + dice.below(3), 1: first}.get(fault, (first + e) % n)
        records.append(C(junction, 1_000_001 if fault == 2 else sound_limit(dice)))
    count = dice.of([0, 1, 2, 3, 4, 5, 6, 40])  # of 40 entries, 17 and more are of one kind
    for _ in range(count):
        fault = dice.below(64)
        junction = n + chambers + dice.below(3) if fault == 0 else dice.below(n + chambers)
        limit = 1_000_001 if fault == 1 else dice.of([None, sound_limit(dice)])
        records.append(dice.of([I, O])(junction, limit))
    return records


def random_records(dice):
    """The records of a drawing whose table is sound. Its entries and its commands may be refused."""
    n = dice.of([2, 3, 4, 5, 6, 7, 9, 12, 256])
    records = [H(n, *two_of(dice, n))]
    reaches = 0
    for _ in range(dice.below(12)):
        if dice.below(4) == 0:
            records.append(N(dice.below(n), bytes(0x21 + dice.below(0x5E) for _ in range(8))))
        else:
            records.append(R(*two_of(dice, n), sound_limit(dice)))
            reaches += 1
    records.append(E())
    entries = random_entries(dice, n)
    records += entries
    reaches += len(entries)
    for _ in range(dice.below(16)):
        kind = dice.below(9)
        if kind == 0:
            records.append(D())
        elif kind == 1:
            records.append(T())
        elif kind < 5:
            records.append(S(dice.of([0, 1, 2, 3, 1_000_000, 2**32 - 1])))
        else:
            limit = dice.of([dice.below(1_000_001), dice.below(1_000), 1_000_000, 1_000_001, dice.below(2**32)])
            records.append(L(dice.below(reaches + 1 + reaches // 4), limit))
    return records


def random_valid():
    for index in range(RANDOM_VALID):
        add(f"random-{index:02}", b"".join(random_records(Dice(1000 + index))))


def random_damaged():
    """Such drawings with one fault more each: a byte changed, removed or inserted, or the end cut off."""
    for index in range(RANDOM_DAMAGED):
        dice = Dice(2000 + index)
        data = b"".join(random_records(dice))
        while len(data) < 30:
            data = b"".join(random_records(dice))
        at = dice.below(len(data))
        byte = dice.of([dice.below(256), ord(dice.of(KINDS)), 0, (data[at] + 1) % 256])
        sort = ("changed", "removed", "inserted", "cut")[index % 4]
        if sort == "changed":
            if byte == data[at]:
                byte ^= 0x01
            data = data[:at] + bytes([byte]) + data[at + 1 :]
        elif sort == "removed":
            data = data[:at] + data[at + 1 :]
        elif sort == "inserted":
            data = data[:at] + bytes([byte]) + data[at:]
        else:
            data = data[:at]
        add(f"damaged-{index:02}-{sort}", data)


def random_bottleneck_records(dice):
    """The records of a small drawing with low limits, names, and now and then entries; its commands are mostly S and B."""
    n = 2 + dice.below(6)
    records = [H(n, *two_of(dice, n))]
    reaches = n + dice.below(9)
    for _ in range(reaches):
        if dice.below(3) == 0:
            records.append(N(dice.below(n), bytes(0x21 + dice.below(0x5E) for _ in range(8))))
        records.append(R(*two_of(dice, n), dice.below(10)))
    records.append(E())
    chambers = dice.of([0, 0, 1, 2])
    first = dice.below(n)
    for e in range(min(chambers, n)):
        records.append(C((first + e) % n, dice.below(10)))
    feeders = dice.of([0, 0, 2, 4])
    for e in range(feeders):
        records.append((I, O)[e % 2](dice.below(n + min(chambers, n)), dice.of([None, dice.below(12), dice.below(12)])))
    reaches += min(chambers, n) + feeders
    for _ in range(4 + dice.below(9)):
        kind = dice.below(10)
        if kind < 3:
            records.append(B())
        elif kind < 5:
            records.append(S(dice.of([1, 1, 2, 1_000])))
        elif kind < 9:
            records.append(L(dice.below(reaches + 1), dice.below(16)))
        else:
            records.append(dice.of([D(), T()]))
    return records + [S(1_000), B(), T()]


def random_bottlenecks():
    """Drawings with bottlenecks, and such drawings with a byte changed or inserted."""
    for index in range(RANDOM_BOTTLENECKS):
        add(f"random-bottleneck-{index:02}", b"".join(random_bottleneck_records(Dice(3000 + index))))
    for index in range(DAMAGED_BOTTLENECKS):
        dice = Dice(4000 + index)
        data = b"".join(random_bottleneck_records(dice))
        at, byte = dice.below(len(data)), dice.of([ord("B"), ord("B"), dice.below(256)])
        data = data[:at] + bytes([byte]) + data[at + index % 2 :]
        add(f"damaged-bottleneck-{index:02}", data)


def main():
    ends_and_order()
    shapes()
    lays()
    names()
    cuts_and_bad_bytes()
    commands()
    chambers()
    gathering()
    stacks()
    settlings()
    bottlenecks()
    cuts()
    across_names()
    across_layers()
    examples()
    sizes()
    random_valid()
    random_damaged()
    random_bottlenecks()

    stored.write([(name, data, report(data)) for name, data in cases.items()], outside=False)


if __name__ == "__main__":
    main()
