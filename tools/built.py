"""Runs the checker over the libraries that `rt ci` has just left in crates/, so that none of them is proved once more."""

import re
import shutil
from pathlib import Path

TOP = Path(__file__).resolve().parent.parent


def below(names):
    """The crates of this repository with these names and all below them, each with what its line of crates.txt names."""
    lines = (TOP / "crates.txt").read_text().splitlines()
    uses = {re.split(r"[ :]", line)[0]: line.split(":")[1].split() for line in lines if ":" in line}
    found, todo = {}, list(names)
    while todo:
        name = todo.pop()
        if name in uses and name not in found:
            found[name] = uses[name]
            todo += uses[name]
    return found


def words(command, name, names):
    """The words that run the checker's command on src/lib.rt as a crate of this name, which uses the crates with these names."""
    kit = Path(shutil.which("rattle")).resolve().parent.parent
    said = ["rattle", command, "--crate-name", name, "src/lib.rt", "--jobs", "1"]
    said += ["--antt-project", f"{kit}/rattle/logic/antt-project.json", "--logic-built", f"{kit}/logic_built"]
    said += ["-L", f"dependency={kit}/rlibs", "--extern", f"std={kit}/rlibs/std.rlib"]
    for used in below(names):
        rlib = TOP / "crates" / used / "out" / "rlib"
        said += ["-L", f"dependency={rlib}"]
        said += ["--extern", f"{used}={rlib}/{used}.rlib"] * (used in names)
    return said
