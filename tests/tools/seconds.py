#!/usr/bin/env python3
"""What the functions of a crate take in a first check, by part: seconds.py [--most N] CRATE

A copy of the crate, over what is built of those below it, is checked as if for the first time. The check keeps each module
that it makes as a file once it has ended with it, one after the other, so the time between two files is what the later one
took. Of each function the seconds are told and of which modules they are: `Lts` is the walk over its code with all that is
let go on each way out of it, `Tie` that its loans hold, `Proof` and `Answers` the proof of its clauses. What the lines of
`rt check --progress` tell is something else: the first function that names a part of a library has there what is read of
it. `weights.py` tells in a moment what functions weigh; one that takes far more seconds than it weighs MB mostly has a goal
for which several tactics are tried in vain (`Proof`), lends many values at once (`Tie`), or owns wide values over several
`?`, or lets one go at the end of a block, where a `drop` by name is cheap (`Lts`).
"""

import argparse
import collections
import os
import re
import shutil
import subprocess
import sys
import tempfile

sys.dont_write_bytecode = True
sys.path.insert(0, os.path.join(os.path.dirname(os.path.abspath(__file__)), os.pardir, os.pardir, "bench"))

import copies  # noqa: E402


def made(kept):
    """The modules that a check kept, in the order in which it ended with them: when, and the name."""
    found = []
    for at, _, names in os.walk(kept):
        for name in names:
            if name.endswith(".oantt"):
                found.append((os.stat(os.path.join(at, name)).st_mtime_ns / 1e9, name.removesuffix(".oantt")))
    return sorted(found)


def part_of(crate, module):
    """The function whose module it is, and which part of its check; or what else the module is of."""
    module = module.removesuffix(".decls")
    named = re.fullmatch(rf"Rattle-{crate}-(proofs|specs)\.(.*)", module)
    if not named:
        return "", "of libraries"
    if named[1] == "specs":
        return "", "contracts" if named[2].startswith("contracts.") else "definitions"
    function, _, kind = named[2].rpartition(".")
    if function and kind[:1].isupper():
        return function, kind.partition("-")[0]
    return ("", "lemmas") if named[2][:1].isupper() else (named[2], "itself")


def seconds(crate, modules):
    """Of each function, and of what is no function's, the seconds of each part."""
    taken = collections.defaultdict(collections.Counter)
    for (before, _), (now, module) in zip(modules, modules[1:]):
        function, part = part_of(crate, module)
        taken[function][part] += now - before
    return taken


def shown(parts, least=0.1):
    return ", ".join(f"{part} {took:.1f}" for part, took in parts.most_common() if took >= least)


def main():
    parser = argparse.ArgumentParser(description="What the functions of a crate take in a first check, by part.")
    parser.add_argument("--most", type=int, default=20, help="how many functions are listed")
    parser.add_argument("crate", metavar="CRATE")
    given = parser.parse_args()
    with tempfile.TemporaryDirectory() as folder:
        copies.copy(folder, [given.crate])
        crate = os.path.join(folder, "crates", given.crate)
        shutil.rmtree(os.path.join(crate, "out"), ignore_errors=True)
        check = subprocess.run(["rt", "check", "--jobs", "1"], cwd=crate, capture_output=True, text=True)
        taken = seconds(given.crate, made(os.path.join(crate, "out", "incremental")))
    last = (check.stdout + check.stderr).strip().rpartition("\n")[2]
    for parts, name in sorted(((parts, name) for name, parts in taken.items() if name), key=lambda row: -row[0].total())[: given.most]:
        print(f"  {parts.total():6.1f} {name}: {shown(parts)}")
    total = sum(taken.values(), collections.Counter())
    print(f"{given.crate}: {total.total():.0f} s in {len(taken) - ('' in taken)} functions: {shown(total, 1)}; {last[:80]}")
    sys.exit(not last.startswith("logic=proved"))


if __name__ == "__main__":
    main()
