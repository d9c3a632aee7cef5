#!/usr/bin/env python3
"""Shows the time that `trim` and `difference` of two chains of blocks take, and how it grows with the blocks.

    chains.py [FOLDER]

In FOLDER, or in a temporary folder, a repository of two crates is made: a copy of crates/resources_chain with its
out/, and the program chains.rt.in, which `rt run` proves and builds (two minutes from nothing; a folder that is
given is used again). The two chains have the same number of blocks, each of which overlaps with one of the other
chain and stands apart from the rest. Each size is run thirty times, of which the best time counts; building the
chains isn't measured. The number of blocks and the sum of their ends are compared with the right ones.

Target: twice the blocks take at most 2.5 times the time. Exits with 1 where it is missed or an answer is wrong.
"""

import os
import subprocess
import sys
import tempfile

sys.dont_write_bytecode = True
import copies  # noqa: E402
import growth  # noqa: E402

SIZES = (50_000, 100_000, 200_000)
RUNS = 30
MOST_GROWTH = 2.5

BENCH = os.path.dirname(os.path.abspath(__file__))
NAME = "chains_bench"
HEAD = """| operation  | blocks each |     ms | ns a block | growth |
|---|---:|---:|---:|---|"""


def answers(blocks):
    """The right number of blocks and sum of their ends, where one chain has 0 to 2, 6 to 8 and so on, and the
    other 1 to 4, 7 to 10 and so on."""
    starts = range(0, 6 * blocks, 6)
    return {
        "trim": (blocks, sum(start + 1 + start + 2 for start in starts)),
        "difference": (blocks, sum(start + start for start in starts)),
    }


def build(folder):
    """Makes the repository, and proves and builds the program; its path."""
    crate = copies.make(folder, NAME, os.path.join(BENCH, "chains.rt.in"), ["resources_chain"])
    done = subprocess.run(["rt", "run", "--", "1"], cwd=crate, capture_output=True, text=True)
    if done.returncode != 0:
        sys.exit(done.stdout + done.stderr)
    return os.path.join(crate, "out", NAME)


def run_once(program, blocks):
    """Of each operation the nanoseconds, and the number of blocks with the sum of their ends."""
    told = subprocess.run([program, str(blocks)], capture_output=True, text=True, check=True).stdout
    rows = [line.split() for line in told.splitlines()]
    return {name: (int(nanos), (int(count), int(ends))) for name, nanos, count, ends in rows}


def measure(program, blocks):
    """Of each operation the seconds of the best run, and whether all answers were right."""
    wanted = answers(blocks)
    runs = [run_once(program, blocks) for _ in range(RUNS)]
    return {
        name: (min(run[name][0] for run in runs) / 1e9, all(run[name][1] == wanted[name] for run in runs))
        for name in wanted
    }


def cells(name, blocks, row):
    """The cells in front of the growth; none stands behind it."""
    seconds, _ = row
    return [f"{name:<10}", f"{blocks:>11,}", f"{seconds * 1e3:>6.2f}", f"{seconds * 1e9 / blocks:>10.1f}"], []


def bench(folder):
    """Makes, builds and measures; how many targets were missed or answers wrong."""
    program = build(folder)
    rows = {blocks: measure(program, blocks) for blocks in SIZES}
    return growth.print_rows(HEAD, ("trim", "difference"), SIZES, rows, MOST_GROWTH, cells)


def main():
    if len(sys.argv) > 2:
        sys.exit("usage: chains.py [FOLDER]")
    if len(sys.argv) == 2:
        failures = bench(sys.argv[1])
    else:
        with tempfile.TemporaryDirectory() as folder:
            failures = bench(folder)
    print(f"{failures} targets missed or answers wrong" if failures else "all targets met")
    sys.exit(1 if failures else 0)


if __name__ == "__main__":
    main()
