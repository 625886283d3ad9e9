"""The drawings that crate `drawings` is run on, each with the report that is stored for it: crates/drawings/stdin and stdout.

Two scripts write them, each its own: make_cases.py, and beside/make_stored, whose names begin with `outside-`.
"""

from pathlib import Path

CRATE = Path(__file__).resolve().parent.parent / "crates" / "drawings"
OUTSIDE = "outside-"


def read():
    """The name, the bytes and the stored report of each drawing."""
    reports = {}
    for line in (CRATE / "stdout").read_text("ascii").splitlines(keepends=True):
        if line.startswith("drawing "):
            name = line.split()[1]
            reports[name] = ""
        else:
            reports[name] += line
    asked = [line.split(" ") for line in (CRATE / "stdin").read_text("ascii").splitlines()]
    return [(name, bytes.fromhex("" if digits == "-" else digits), reports[name]) for name, digits in asked]


def write(entries, outside):
    """Writes such drawings with their reports, in the place of those of one script, and leaves those of the other. Those of
    make_stored come last."""
    assert all(name.startswith(OUTSIDE) == outside for name, _, _ in entries)
    other = [entry for entry in read() if entry[0].startswith(OUTSIDE) != outside]
    every = [*other, *entries] if outside else [*entries, *other]
    stdin = "".join(f"{name} {data.hex() or '-'}\n" for name, data, _ in every)
    stdout = "".join(f"drawing {name}\n{report}" for name, _, report in every)
    (CRATE / "stdin").write_text(stdin, "ascii")
    (CRATE / "stdout").write_text(stdout, "ascii")
    print(f"{len(entries)} drawings of {len(every)}, {len(stdin)} bytes of stdin, {len(stdout)} bytes of stdout")
