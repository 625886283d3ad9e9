#!/usr/bin/env python3
"""Writes the example drawings and the report that is expected for each, in examples/, and one of them as the input and
output of `allocate`.
"""

import sys
from pathlib import Path

sys.dont_write_bytecode = True  # leaves no __pycache__ beside the tools
from drawing import B, C, D, E, H, I, L, N, O, R, S, T, report  # noqa: E402

TOP = Path(__file__).resolve().parent.parent
EXAMPLES = TOP / "examples"
ALLOCATE = TOP / "crates" / "allocate"


def headworks():
    """Headworks, a silt basin, two mains that a link joins, a tail gate. The table is sound, three commands are not."""
    return b"".join(
        [
            H(8, 0, 7),
            N(0, "HEADGATE"),
            N(1, "SILTBASN"),
            N(2, "WESTMAIN"),
            N(3, "EASTMAIN"),
            N(4, "MILLPOND"),
            N(5, "ORCHARDS"),
            N(6, "CROSSCUT"),
            N(7, "TAILGATE"),
            R(0, 1, 5200),
            R(1, 2, 2600),
            R(1, 3, 2400),
            R(2, 4, 1500),
            R(2, 6, 900),
            R(3, 6, 700),
            R(3, 5, 1600),
            R(4, 7, 1400),
            R(6, 7, 1300),
            R(5, 7, 1600),
            E(),
            S(2),  # two routes, and more are left
            T(),
            S(100),  # until none is left
            T(),
            L(4, 650),  # refused: the reach carries more
            L(2, 1_000_001),  # refused: the limit is too high
            L(10, 500),  # refused: the reaches are 0 to 9
            D(),
            L(4, 650),
            S(100),
            T(),
            B(),
        ]
    )


def refused():
    """A table with a slip of the pen: reach 2 leads to junction 5, but the junctions are 0 to 4."""
    return b"".join(
        [
            H(5, 0, 4),
            N(0, "HEADGATE"),
            N(4, "TAILGATE"),
            R(0, 1, 3000),
            R(1, 2, 1800),
            R(1, 5, 1200),  # refused: there is no junction 5
            R(2, 4, 1800),
            R(3, 4, 1200),
            E(),
            T(),
        ]
    )


def bottleneck():
    """Two mains and a link between them, settled. What crosses the bottleneck leaves the head gate."""
    return b"".join(
        [
            H(4, 0, 3),
            N(0, "HEADGATE"),
            R(0, 1, 3),
            R(0, 2, 2),
            R(1, 2, 1),
            R(1, 3, 2),
            R(2, 3, 3),
            E(),
            S(10),
            L(0, 1),  # refused: the reach carries more
            B(),
            T(),
        ]
    )


def district():
    """A river weir and a well field feed two cuts. The fork of the main can pass 3,200 litres per second, no more.
    The rice land takes 1,600 at most, and the tail weir whatever arrives. Six commands are refused.
    """
    return b"".join(
        [
            H(8, 0, 7),
            N(0, "WEIRGATE"),
            N(1, "WELLHEAD"),
            N(2, "MAINFORK"),
            N(3, "NORTHCUT"),
            N(4, "SOUTHCUT"),
            N(5, "ORCHARDS"),
            N(6, "RICELAND"),
            N(7, "TAILWEIR"),
            R(0, 2, 3600),
            R(1, 2, 900),
            R(2, 3, 2100),
            R(2, 4, 1900),
            R(3, 5, 1300),
            R(3, 6, 750),
            R(4, 6, 1450),
            R(4, 5, 400),
            R(5, 7, 1500),
            R(6, 7, 800),
            E(),
            C(2, 3200),  # reach 10, from MAINFORK to its twin, junction 8
            I(0, None),  # reach 11, from the gathering's intake, junction 9
            I(1, 800),  # reach 12
            O(6, 1600),  # reach 13, to the gathering's outfall, junction 10
            O(7, None),  # reach 14
            S(1000),
            T(),
            B(),  # what crosses is the chamber
            L(10, 2900),  # refused: the chamber lets more pass
            L(11, 650),  # refused: the feeder of WEIRGATE carries more
            L(13, 1_000_001),  # refused: the limit of a feeder is too high
            L(10, 1_000_001),  # refused: the limit of the chamber is too high
            L(15, 500),  # refused: the reaches are 0 to 14
            L(10, 4000),  # the chamber lets more pass
            B(),  # refused: now a route exists
            S(1000),
            B(),  # what crosses lies below the two cuts and the orchards
            D(),
            L(3, 1700),  # a reach of the table
            L(10, 2900),  # the chamber
            L(12, 650),  # the feeder of WELLHEAD
            S(2),  # two routes, and more are left
            T(),
            S(1000),
            T(),
        ]
    )


def main():
    EXAMPLES.mkdir(exist_ok=True)
    for make in (headworks, refused, bottleneck, district):
        data = make()
        lines = report(data).encode("ascii")
        (EXAMPLES / f"{make.__name__}.drawing").write_bytes(data)
        (EXAMPLES / f"{make.__name__}.report").write_bytes(lines)
    # The gate runs the program on the last of them.
    (ALLOCATE / "stdin").write_bytes(data)
    (ALLOCATE / "stdout").write_bytes(lines)


if __name__ == "__main__":
    main()
