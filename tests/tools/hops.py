#!/usr/bin/env python3
"""Checks the way of a ROA in docs/ARCHITECTURE.md: that each function stands in its crate, and that the hops are counted.

    hops.py

Prints how many functions and changes of crate there are. Exits with 1 where a function isn't found or a number is wrong.
"""

import glob
import os
import re
import sys

TOP = os.path.join(os.path.dirname(os.path.abspath(__file__)), os.pardir, os.pardir)
HEADING = "## One ROA, from standard input to its line"
ROW = re.compile(r"^\| ([^|]+) \| (`[^|]+) \| (\d+) \|$", re.M)
TESTED = "tested"


def section():
    with open(os.path.join(TOP, "docs", "ARCHITECTURE.md")) as file:
        text = file.read()
    return text.split(HEADING, 1)[1].split("\n## ", 1)[0]


def functions_of(crate):
    """The names of all functions of the crate."""
    names = set()
    for path in glob.glob(os.path.join(TOP, "crates", crate, "src", "**", "*.rt"), recursive=True):
        with open(path) as file:
            names.update(re.findall(r"\bfn (\w+)", file.read()))
    return names


def steps_of(cell):
    """The crate and the function of each hop."""
    for group in cell.split("; "):
        crate, functions = group.split(": ", 1)
        for name in functions.split(", "):
            yield crate.strip("`"), name.strip("`").rsplit("::", 1)[-1]


def main():
    text, faults, way, counts, known = section(), [], [], {True: 0, False: 0}, {}
    for what, cell, hops in ROW.findall(text):
        steps = list(steps_of(cell))
        for crate, name in steps:
            if name not in known.setdefault(crate, functions_of(crate)):
                faults.append(f"{what}: {crate} has no {name}")
        if len(steps) != int(hops):
            faults.append(f"{what}: {len(steps)} hops, not {hops}")
        counts[TESTED in what] += len(steps)
        if TESTED not in what:
            way += steps
    if f"{counts[False]}, and {counts[True]} that test it" not in text:
        faults.append(f"the page doesn't say: {counts[False]}, and {counts[True]} that test it")
    changes = sum(one[0] != other[0] for one, other in zip(way, way[1:]))
    print(f"{counts[False]} functions, {changes} changes of crate; {counts[True]} that test")
    for fault in faults:
        print(fault, file=sys.stderr)
    return 1 if faults else 0


if __name__ == "__main__":
    sys.exit(main())
