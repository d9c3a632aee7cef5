#!/usr/bin/env python3
"""Counts the instructions that writing values takes, beside the Rust crate's.

    writing.py FOLDER BCDER

In FOLDER a repository is made: copies of crates/bcder and what it stands on, with their out/ where they have one, and
the program writing.rt.in, which `rt run` proves and builds (a folder that is given is used again). BCDER is the folder
that `dpkg -x` made of Debian's packages librust-bcder-dev, librust-bytes-dev and librust-smallvec-dev, over which cargo
builds writing.rs.in.

Each program makes a SEQUENCE OF so many values and captures what is written of it in DER: INTEGERs of 64 bits, OCTET
STRINGs of 20 octets, and OBJECT IDENTIFIERs of 9 octets; and as many values nested as certificates are, of 0.8 KB, one by
one. `valgrind --tool=callgrind` counts the instructions of runs that write once and eleven times; a tenth of the difference
is what one writing takes, whatever else the machine does. Both programs have to write the same octets.

Then SEQUENCEs in each other are written, the innermost empty, by writing_deep.rt.in, which `rt try` runs with no proof and
with its checks, so that only the growth of its times tells something; beside it the instructions of the Rust crate.

Targets: twice the values take at most 2.1 times the instructions, and each kind at most 1.2 times those of the Rust crate;
a level of a deep value takes at most 2.5 times as long in ten times as many. Exits with 1 where one is missed or octets
differ.
"""

import os
import re
import subprocess
import sys

sys.dont_write_bytecode = True
import content  # noqa: E402
import copies  # noqa: E402

KINDS = {"u64": (5_000, 10_000), "octets": (5_000, 10_000), "oid": (5_000, 10_000), "nest": (500, 1_000)}
MORE = 10
MOST_GROWTH = 2.1
MOST_RATIO = 1.2
DEPTHS = (10, 100, 1000)
MOST_DEEP_GROWTH = 2.5

BENCH = os.path.dirname(os.path.abspath(__file__))
NAME = "writing_bench"
HEAD = """| values | number | octets each | instructions each | growth | bcder, each | ratio |
|---|---:|---:|---:|---|---:|---:|"""
DEEP_HEAD = """| levels | octets | ms, with checks | a level | growth | bcder, instructions a level | growth |
|---:|---:|---:|---:|---|---:|---|"""


def build(folder):
    """Makes the repository, and proves and builds the program; its path."""
    crate = copies.make(folder, NAME, os.path.join(BENCH, "writing.rt.in"), ["bcder"])
    content.run(["rt", "run", "--", "u64", "1", "1"], crate)
    return os.path.join(crate, "out", NAME)


def run_once(program, kind, size, times):
    """The instructions of a run, the octets that it wrote, and their sum."""
    command = ["valgrind", "--tool=callgrind", "--callgrind-out-file=/dev/null", program, kind, str(size), str(times)]
    done = subprocess.run(command, capture_output=True, text=True, check=True)
    octets, told = (int(word) for word in done.stdout.split())
    return int(re.search(r"Collected : (\d+)", done.stderr).group(1)), octets, told


def count(program, kind, size):
    """The instructions that one writing takes, the octets written, and their sum."""
    once, octets, told = run_once(program, kind, size, 1)
    more, _, _ = run_once(program, kind, size, 1 + MORE)
    return (more - once) / MORE, octets, told


def bench(ours, theirs):
    """Counts; how many targets were missed or octets differ."""
    print(HEAD)
    failures = 0
    for kind, sizes in KINDS.items():
        before = None
        for size in sizes:
            cost, *written = count(ours, kind, size)
            other, *wanted = count(theirs, kind, size)
            factor, ratio = cost / before if before else None, cost / other
            failures += (ratio > MOST_RATIO) + (factor is not None and factor > MOST_GROWTH) + (written != wanted)
            cells = [kind, f"{size:,}", f"{written[0] / size:.1f}", f"{cost / size:,.0f}"]
            cells += [f"x {factor:.2f}" if factor else "", f"{other / size:,.0f}"]
            cells.append(f"{ratio:.2f}" + (" MISSED" if ratio > MOST_RATIO else ""))
            print("| " + " | ".join(cells) + " |" + ("" if written == wanted else " OTHER OCTETS"))
            before = cost
    return failures


def deep(folder, theirs):
    """Times the writing of deep values; how many targets were missed or octets differ."""
    crate = copies.make(folder, "writing_deep", os.path.join(BENCH, "writing_deep.rt.in"), ["bcder_values", "bcder_primitive"])
    done = subprocess.run(["rt", "try", "--", *map(str, DEPTHS)], cwd=crate, capture_output=True, text=True)
    rows = re.findall(r"^(\d+) (\d+) (\d+)$", done.stdout, re.MULTILINE)
    if [int(row[0]) for row in rows] != list(DEPTHS):
        sys.exit(done.stdout + done.stderr)
    print(DEEP_HEAD)
    failures, before = 0, None
    for levels, octets, nanos in (map(int, row) for row in rows):
        each = nanos / levels
        cost, other, _ = count(theirs, "deep", levels)
        factors = (each / before[0], cost / levels / before[1]) if before else (None, None)
        failures += (factors[0] is not None and factors[0] > MOST_DEEP_GROWTH) + (octets != other)
        cells = [f"{levels:,}", f"{octets:,}", f"{nanos / 1e6:.2f}", f"{each / 1e3:.1f} us"]
        cells += [f"x {factors[0]:.1f}" if before else "", f"{cost / levels:,.0f}", f"x {factors[1]:.1f}" if before else ""]
        print("| " + " | ".join(cells) + " |" + ("" if octets == other else " OTHER OCTETS"))
        before = (each, cost / levels)
    return failures


def main():
    if len(sys.argv) != 3:
        sys.exit("usage: writing.py FOLDER BCDER")
    folder, packages = sys.argv[1:]
    os.makedirs(folder, exist_ok=True)
    theirs = content.build_rust(folder, packages, "writing.rs.in")
    failures = bench(build(folder), theirs) + deep(folder, theirs)
    print(f"{failures} targets missed or octets differ" if failures else "all targets met")
    sys.exit(1 if failures else 0)


if __name__ == "__main__":
    main()
