#!/usr/bin/env python3
"""Draws the worked networks of docs/THEORY.md, settled, each with its bottleneck: docs/worked-five.svg and
docs/worked-seven.svg.

Where a junction stands in the picture is said here. All else is worked out: the routes, what the reaches carry, the near
side and the reaches that cross from it. Every run writes the same files.
"""

import sys
from math import hypot
from pathlib import Path

sys.dont_write_bytecode = True  # leaves no __pycache__ beside the tools
from drawing import Draft  # noqa: E402

DOCS = Path(__file__).resolve().parent.parent / "docs"

RADIUS = 22  # of a junction
SHADE = 44  # of the shade behind a near junction
ARROW = 11  # the length of an arrowhead
INK, SHADED, CROSSING = "#1a1a1a", "#cfe0f3", "#a3001e"
FONT = 'font-family="Helvetica, Arial, sans-serif"'

# For each network: junctions, intake, outfall; its reaches by tail, head and limit; where each junction stands.
WORKED = {
    "five": (
        (4, 0, 3),
        [(0, 1, 3), (0, 2, 2), (1, 2, 1), (1, 3, 2), (2, 3, 3)],
        [(80, 190), (380, 80), (380, 300), (680, 190)],
    ),
    "seven": (
        (6, 0, 5),
        [(0, 1, 1), (1, 2, 1), (2, 5, 1), (1, 3, 1), (3, 5, 1), (0, 4, 1), (4, 2, 1)],
        [(80, 190), (280, 80), (480, 300), (480, 80), (280, 300), (680, 190)],
    ),
}


def settled(shape, reaches):
    """The network, settled, and the routes that were pushed."""
    draft = Draft()
    draft.shape(*shape)
    for reach in reaches:
        draft.lay(*reach)
    network, routes = draft.commission(), []
    while (route := network.first_shortest_route()) is not None:
        routes.append(route)
        network.settle(1)
    return network, routes


def text(x, y, words, size=15, anchor="middle", color=INK, weight="normal"):
    return (
        f'<text x="{x:g}" y="{y:g}" font-size="{size}" text-anchor="{anchor}" fill="{color}" font-weight="{weight}">'
        f"{words}</text>"
    )


def line(one, other, color, width):
    x, y, u, v = (f"{n:.1f}" for n in (*one, *other))
    return f'<line x1="{x}" y1="{y}" x2="{u}" y2="{v}" stroke="{color}" stroke-width="{width}"/>'


def arrow(tail, head, crosses, words):
    """A reach, with its number and what it carries. One that crosses is thick, and a bar stands across it."""
    length = hypot(head[0] - tail[0], head[1] - tail[1])
    along = ((head[0] - tail[0]) / length, (head[1] - tail[1]) / length)
    left = (along[1], -along[0])

    def at(far, aside=0.0):
        return tail[0] + far * along[0] + aside * left[0], tail[1] + far * along[1] + aside * left[1]

    color, width = (CROSSING, 4) if crosses else (INK, 2)
    tip = length - RADIUS - 2
    corners = (at(tip), at(tip - ARROW, 6), at(tip - ARROW, -6))
    parts = [
        line(at(RADIUS), at(tip - ARROW), color, width),
        f'<polygon points="{" ".join(f"{x:.1f},{y:.1f}" for x, y in corners)}" fill="{color}"/>',
    ]
    if crosses:
        parts.append(line(at(SHADE + 12, 11), at(SHADE + 12, -11), color, 4))
    x, y = at(length / 2 + 8)
    parts.append(f'<rect x="{x - 41:.1f}" y="{y - 13:.1f}" width="82" height="26" rx="4" fill="white" stroke="{color}"/>')
    parts.append(text(round(x, 1), round(y + 5, 1), words, color=color, weight="bold" if crosses else "normal"))
    return parts


def junction(number, place, words):
    x, y = place
    parts = [f'<circle cx="{x}" cy="{y}" r="{RADIUS}" fill="white" stroke="{INK}" stroke-width="2"/>']
    parts.append(text(x, y + 6, number, size=18, weight="bold"))
    if words:
        parts.append(text(x, y + SHADE + 18, words, size=14))
    return parts


def picture(shape, reaches, places):
    network, routes = settled(shape, reaches)
    near, crossing = network.bottleneck()
    crossing = {k for k, _ in crossing}
    told = "; ".join(" ".join(str(step) for step in route) for route in routes)
    cut_sum = sum(network.reaches()[k].limit for k in crossing)

    parts = [f'<circle cx="{places[v][0]}" cy="{places[v][1]}" r="{SHADE}" fill="{SHADED}"/>' for v in sorted(near)]
    for k, reach in enumerate(network.reaches()):
        words = f"{k}: {reach.carried} of {reach.limit}"
        parts += arrow(places[reach.tail], places[reach.head], k in crossing, words)
    for v, place in enumerate(places):
        words = {network.intake: "intake", network.outfall: "outfall"}.get(v, "")
        parts += junction(v, place, words)

    left, below = 24, 372
    near_words = ("junction " if len(near) == 1 else "junctions ") + ", ".join(str(v) for v in sorted(near))
    across_words = ", ".join(str(k) for k in sorted(crossing))
    notes = [
        f"Settled: {len(routes)} routes, by their steps {told}. Delivered: {network.tally()} litres per second.",
        f"Near side of the bottleneck (shaded): {near_words}.",
        f"Reaches that cross it (thick, with a bar): {across_words}. The sum of their limits: {cut_sum}.",
        "At each reach: its number, and what it carries of its limit.",
        "Step 2k goes along reach k, step 2k + 1 back along it.",
    ]
    parts += [text(left, below + 22 * row, words, size=14, anchor="start") for row, words in enumerate(notes)]
    width, height = 760, below + 22 * len(notes)
    return "\n".join(
        [
            f'<svg xmlns="http://www.w3.org/2000/svg" width="{width}" height="{height}" viewBox="0 0 {width} {height}" {FONT}>',
            f"<title>{notes[1]} {notes[2]}</title>",
            f'<rect width="{width}" height="{height}" fill="white"/>',
            *parts,
            "</svg>\n",
        ]
    )


def main():
    for name, (shape, reaches, places) in WORKED.items():
        (DOCS / f"worked-{name}.svg").write_text(picture(shape, reaches, places), encoding="ascii")


if __name__ == "__main__":
    main()
