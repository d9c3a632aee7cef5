#!/usr/bin/env python3
"""Compares the definitions and clauses that are wider than 100 columns with those that may be.

    widths.py [--prune | --take]

A definition is what a file of specs/ declares, its type and its text; a clause is what stands in a file of src/ for the prover: what
a call requires and ensures, and what a type or trait says by ghosts. Comments, imports and hints to the prover don't count. Those that
were wider when this was first asked stand in `widths.tsv`, each with its widest line. Exits with 1 where one is wider than that, or
than 100 columns where it doesn't stand there. With --prune the list loses those that are narrow now, and takes in which are narrower;
it never adds one. With --take the list is made anew: for a merge of work that was begun before the list was.
"""

import argparse
import pathlib
import re
import sys

MOST = 100
TOP = pathlib.Path(__file__).resolve().parents[2]
LIST = pathlib.Path(__file__).with_suffix(".tsv")
HEAD = """\
# Definitions and clauses wider than 100 columns (tests/tools/widths.py): a file below crates/, what stands in it, and its widest
# line, with tabs between them. No row may be added, and no width may rise.
"""
# What an import, a comment or a hint to the prover begins with.
OTHER = re.compile(r"--|//|#!?\[|(?:pub )?(?:ghost )?use\b|(?:pub )?mod\b")
MARKS = {"pattern", "unfoldable", "abbrev", "pub", "mutual", "axiom", "record", "data"}
CALL = re.compile(r"\b(?:fn|struct|enum|trait|type|const) (\w+)|^impl\b.*?(\w+)(?:<[^{]*)? \{")


def declared(lines):
    """The lines of a file of definitions, each with the name of the declaration that it is of."""
    name, margin = "", 0
    for line in lines:
        text = line.strip()
        if not text or text.startswith("--"):
            continue
        indent = len(line) - len(line.lstrip())
        if indent == 0:
            margin = 2 if text in ("mutual", "abbrev mutual", "unfoldable mutual") else 0
        if indent == margin and not text.startswith((")", "}", "]")):
            words = [word for word in text.split() if word not in MARKS]
            # (operators are declared and defined in the middle of their operands)
            name = words[0].strip("()") if words else name
        yield line, name


def stated(lines):
    """The lines of a file of code, each with the name of the item that it is of."""
    name = ""
    for line in lines:
        found = None if line.strip().startswith("//") else CALL.search(line)
        name = found[1] or found[2] if found else name
        yield line, name


def wide():
    """By file and name the widest line of each definition and clause that is wider than it should be."""
    found = {}
    for path in sorted((TOP / "crates").glob("*/s*/**/*")):
        way = {("specs", ".antt"): declared, ("src", ".rt"): stated}.get((path.relative_to(TOP).parts[2], path.suffix))
        for line, name in way(path.read_text().splitlines()) if way else ():
            if len(line) > MOST and not OTHER.match(line.strip()):
                key = str(path.relative_to(TOP / "crates")), name
                found[key] = max(len(line), found.get(key, 0))
    return found


def listed():
    rows = [line.split("\t") for line in LIST.read_text().splitlines() if line and line[0] != "#"]
    return {(path, name): int(width) for path, name, width in rows}


def main():
    parser = argparse.ArgumentParser(description=__doc__, formatter_class=argparse.RawDescriptionHelpFormatter)
    parser.add_argument("--prune", action="store_true")
    parser.add_argument("--take", action="store_true")
    given = parser.parse_args()
    found, kept = wide(), listed()
    if given.prune or given.take:
        kept = found if given.take else {key: min(width, found[key]) for key, width in kept.items() if key in found}
        LIST.write_text(HEAD + "".join(f"{path}\t{name}\t{width}\n" for (path, name), width in sorted(kept.items())))
    wrong = {key: width for key, width in found.items() if width > kept.get(key, MOST)}
    for (path, name), width in sorted(wrong.items()):
        print(f"{path}: {name} is {width} columns wide, and may be {kept.get((path, name), MOST)}")
    narrower = sum(found.get(key, MOST) < width for key, width in kept.items())
    if narrower:
        print(f"{narrower} of {LIST.name} are narrower now: --prune takes that in")
    print(f"{len(found) - len(wrong)} wide ones are listed, {len(wrong)} are not")
    sys.exit(1 if wrong else 0)


if __name__ == "__main__":
    main()
