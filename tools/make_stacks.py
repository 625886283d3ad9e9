#!/usr/bin/env python3
"""Writes crates/stacks/stdout: what the program `stacks` is expected to print.

It builds 120 small tables with four layers over each, chambers, gathering, chambers and gathering, and tells what
every call answers and what the whole stack is. Then come two towers, which grow to 512 junctions and to 2,048 reaches.

The networks come from the model in drawing.py. What is drawn comes from the dice in make_cases.py. The program draws
the same numbers in the same order, so the two must agree in every line. Every run writes the same file.
"""

import sys
from pathlib import Path

sys.dont_write_bytecode = True  # leaves no __pycache__ beside the tools
from drawing import Chambers, Draft, Gathering, Refused  # noqa: E402
from make_cases import Dice, two_of  # noqa: E402

FOLDER = Path(__file__).resolve().parent.parent / "crates" / "stacks"

STACKS = 120
CALLS = 6  # calls of carry and limit on each whole stack

lines = []


def tell(*words):
    lines.append(" ".join(str(word) for word in words))


def tell_answer(call, *words):
    """Makes a call that may be refused, and tells the words and the answer. There is no input, so there is no place."""
    try:
        call()
        answer = "accepted"
    except Refused as refusal:
        answer = f"refused {refusal.reason} in {refusal.part}"
    tell(*words[:-1], f"{words[-1]}: {answer}")


def tell_size(network):
    tell("size", network.n, network.m, network.intake, network.outfall)


def tell_reaches(network):
    for k, reach in enumerate(network.reaches()):
        tell("reach", k, reach.tail, reach.head, reach.limit, reach.carried)


def tell_touches(network):
    """For each junction, and for the number after the last: the reaches that have it as tail or head."""
    reaches = network.reaches()
    for junction in range(network.n + 1):
        tell("touch", junction, *[k for k, reach in enumerate(reaches) if junction in (reach.tail, reach.head)])


def carry(network, k, amount):
    tell_answer(lambda: network.carry(k, amount), "carry", k, amount)


def limit(network, k, value):
    tell_answer(lambda: network.limit(k, value), "limit", k, value)


def chamber(layer, junction, value):
    tell_answer(lambda: layer.chamber(junction, value), "chamber", junction, value)


def source(layer, junction, value):
    """A source. The limit is None where none is stated; so it is for a sink."""
    tell_answer(lambda: layer.source(junction, value), "source", junction, "none" if value is None else value)


def sink(layer, junction, value):
    tell_answer(lambda: layer.sink(junction, value), "sink", junction, "none" if value is None else value)


# ---- The stacks. -----------------------------------------------------------------------------------------------------


def drawn_limit(dice):
    """One of 0, 100,000 and so on up to 1,100,000, of which the last is too high."""
    return dice.below(12) * 100_000


def drawn_table(dice):
    n = 2 + dice.below(5)
    draft = Draft()
    draft.shape(n, *two_of(dice, n))
    for _ in range(dice.below(8)):
        draft.lay(*two_of(dice, n), dice.below(10))
    return draft.commission()


def drawn_chamber(dice, layer):
    junction = dice.below(layer.below.n + 2)
    chamber(layer, junction, drawn_limit(dice))


def drawn_source_or_sink(dice, layer):
    entry = (source, sink)[dice.below(2)]
    junction = dice.below(layer.below.n + 1)
    stated = dice.below(3) != 0
    value = drawn_limit(dice)  # drawn where it is not stated as well
    entry(layer, junction, value if stated else None)


def drawn_layer(dice, layer, most, drawn_entry):
    """Makes fewer than `most` entries, and one more while some reach may carry."""
    for _ in range(dice.below(most)):
        drawn_entry(dice, layer)
    if layer.m > 0:
        k = dice.below(layer.m)
        carry(layer, k, dice.below(2))
        drawn_entry(dice, layer)
        carry(layer, k, 0)
    return layer


def stack(index):
    dice = Dice(3000 + index)
    tell("stack", index)
    network = drawn_table(dice)
    for _ in range(2):
        network = drawn_layer(dice, Chambers(network), 4, drawn_chamber)
        network = drawn_layer(dice, Gathering(network), 5, drawn_source_or_sink)

    tell_size(network)
    tell_reaches(network)
    tell_touches(network)
    for _ in range(CALLS):
        call = (carry, limit)[dice.below(2)]
        k = dice.below(network.m + 1)
        call(network, k, dice.below(12) * 100_000)
    tell_reaches(network)
    tell("tally", network.tally())


# ---- The towers. -----------------------------------------------------------------------------------------------------


def tower_of_junctions():
    """256 junctions and eight layers of 32 chambers make 512. There is no place for a twin more, nor for two more."""
    tell("tower", "junctions")
    draft = Draft()
    draft.shape(256, 0, 255)
    draft.lay(0, 255, 10)
    network = draft.commission()
    for _ in range(8):
        network = Chambers(network)
        for junction in range(32):
            network.chamber(junction, 1000)
        tell_size(network)
    network = Chambers(network)
    chamber(network, 0, 1000)
    tell_size(network)
    network = Gathering(network)
    source(network, 0, None)
    tell_size(network)


def tower_of_reaches():
    """1,024 reaches and 32 layers of 32 feeders make 2,048. There is no place for a reach more."""
    tell("tower", "reaches")
    draft = Draft()
    draft.shape(2, 0, 1)
    for _ in range(1024):
        draft.lay(0, 1, 1)
    network = draft.commission()
    for _ in range(32):
        network = Gathering(network)
        for _ in range(16):
            network.source(0, None)
        for _ in range(16):
            network.sink(1, None)
    tell_size(network)
    network = Gathering(network)
    source(network, 0, None)
    tell_size(network)
    network = Chambers(network)
    chamber(network, 0, 1000)
    tell_size(network)


def main():
    for index in range(STACKS):
        stack(index)
    tower_of_junctions()
    tower_of_reaches()

    FOLDER.mkdir(parents=True, exist_ok=True)
    stdout = "".join(line + "\n" for line in lines)
    (FOLDER / "stdout").write_bytes(stdout.encode("ascii"))
    print(f"{len(lines)} lines, {len(stdout)} bytes of stdout")


if __name__ == "__main__":
    main()
