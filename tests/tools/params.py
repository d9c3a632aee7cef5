#!/usr/bin/env python3
"""Compares the functions that have more than five parameters with those that may.

    params.py [--prune]

An allocator that is passed on as `alloc` isn't counted, and neither is `self`. Functions are those of crates/*/src, of which each place
counts: one in a trait, and one in each type that has it. Those that may have more stand in `params.tsv`, each with its number of
parameters and the reason. Exits with 1 where a function with more doesn't stand there with that number, or where one stands there that
isn't in the sources. With --prune the list loses the latter; it never adds one.
"""

import argparse
import pathlib
import re
import sys

TOP = pathlib.Path(__file__).resolve().parents[2]
sys.path.insert(0, str(TOP / "tests/lib"))

from calls import COMMENT, balanced, owner_of, split_list
from contracts import sources

MOST = 5
LIST = pathlib.Path(__file__).with_suffix(".tsv")
# A function, the head of a block that has some, or the end of an item.
ITEM = re.compile(
    r"^(?P<margin> *)(?:pub(?:\([a-z ]+\))? )?(?:(?:const|final|unsafe|extern \"C\") )*fn (?P<name>\w+)"
    r"|^(?:pub(?:\([a-z ]+\))? )?(?:unsafe )?(?:impl|trait)\b(?P<head>[^{;]*)|^\}",
    re.M,
)
UNCOUNTED = re.compile(r"(?:&(?:'\w+ )?)?(?:mut )?self\b|(?:mut )?_?alloc:")


def parameters_at(text, at):
    """The parameters of a function from behind its name, `self` and the allocator apart."""
    if text[at] == "<":
        at = balanced(text, at, "<", ">")
    end = balanced(text, at, "(", ")")
    return [it for it in split_list(text[at + 1 : end - 1]) if not UNCOUNTED.match(it)]


def functions_of(text):
    """The functions of a text, each with the type or trait that it belongs to in front, and their parameters."""
    text, owner = COMMENT.sub("", text), ""
    for found in ITEM.finditer(text):
        if found["name"] is None:
            owner = owner_of(found["head"])[0] if found["head"] else ""
        else:
            label = f"{owner}::{found['name']}" if owner and found["margin"] else found["name"]
            yield label, parameters_at(text, found.end())


def crowded():
    """The functions with more parameters than they should have: crate, file, function and number, with the parameters."""
    found = {}
    for path in map(pathlib.Path, sources()):
        crate, _, *file = path.resolve().relative_to(TOP / "crates").parts
        for label, parameters in functions_of(path.read_text()):
            if len(parameters) > MOST:
                found[crate, "/".join(file), label, len(parameters)] = [it.partition(":")[0] for it in parameters]
    return found


def listed():
    """The rows of the list, with their reasons."""
    found = {}
    for number, line in enumerate(LIST.read_text().splitlines(), 1):
        if line and line[0] != "#":
            row = line.split("\t")
            if len(row) != 5 or not row[3].isdigit() or not row[4].strip():
                sys.exit(f"{LIST.name}:{number}: crate, file, function, number and reason are wanted, with tabs between them")
            found[row[0], row[1], row[2], int(row[3])] = row[4]
    return found


def prune(gone):
    """Takes rows out of the list."""
    rows = {"\t".join(map(str, key)) for key in gone}
    lines = [line for line in LIST.read_text().splitlines() if line.rpartition("\t")[0] not in rows]
    LIST.write_text("\n".join(lines) + "\n")


def main():
    parser = argparse.ArgumentParser(description=__doc__, formatter_class=argparse.RawDescriptionHelpFormatter)
    parser.add_argument("--prune", action="store_true")
    given = parser.parse_args()
    found, kept = crowded(), listed()
    wrong = {key: names for key, names in found.items() if key not in kept}
    for (crate, file, label, number), names in sorted(wrong.items()):
        print(f"{crate}/src/{file}: {label} has {number} parameters, and may have {MOST}: {', '.join(names)}")
    gone = [key for key in kept if key not in found]
    for crate, file, label, number in gone:
        print(f"{LIST.name}: {crate}/src/{file} has no {label} with {number} parameters{', taken out' if given.prune else ''}")
    if given.prune:
        prune(gone)
    print(f"{len(found) - len(wrong)} functions with more than {MOST} parameters are listed, {len(wrong)} are not")
    sys.exit(1 if wrong or gone and not given.prune else 0)


if __name__ == "__main__":
    main()
