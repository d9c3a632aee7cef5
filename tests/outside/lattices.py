#!/usr/bin/env python3
"""Counts what the built program does where chains multiply, and where certificates are many.

    lattices.py PROGRAM        (PROGRAM is crates/rpki_check/out/rpki_check)

What is counted is how often the program asks for memory (`refuse_growth.c`, compiled by `cc` and preloaded, refuses nothing
here): a walk asks at each file that it reads and at each step from a chain to a longer one, and the count doesn't depend on
the machine or on other work. Each answer is compared with the right one.

- In lattices of width 2 and 3 each authority of a row certifies all of the next, in 8, 16 and 31 rows: with the anchor's, 32
  certificates a chain, and 3^31 chains. Where they end alike they are walked once, so each row counts as much as another.
- The same where the last row certifies the row above it again: chains that differ in one of these keys alone don't end
  alike, and those above still do.
- Where the last row certifies the first again, chains differ in all their keys: the answers are those of the second reading
  (`rpki_model`), and a chain counts no more than an authority does in such a lattice without that.
- 1,000, 10,000 and 100,000 authorities side by side: each counts as much as another.

Prints the counts, a line for each answer or count that isn't right, and `N passed, M failed`; exits with 1 where one failed.
"""

import os
import sys
import tempfile

sys.dont_write_bytecode = True
sys.path.insert(0, os.path.join(os.path.dirname(os.path.abspath(__file__)), os.pardir, "lib"))

import rpki_model  # noqa: E402
from refusals import compiled, run  # noqa: E402
from rpki_lattices import FIRST_AS, lattice, sibling_at, siblings  # noqa: E402
from rpki_repositories import HOST  # noqa: E402

HEIGHTS = (8, 16, 31)
# With a row that is certified again below, chains are two certificates longer than rows are many.
AGAIN_HEIGHTS = (7, 14, 28)
SIBLINGS = (1_000, 10_000, 100_000)
# What is counted in proportion may be so much more than in proportion to what is half or a tenth as large.
MOST_MORE = 1.15


class Tests:
    def __init__(self, program, shim):
        self.program, self.shim = program, shim
        self.passed = self.failed = 0

    def is_right(self, name, is_right, said):
        self.passed, self.failed = self.passed + is_right, self.failed + (not is_right)
        if not is_right:
            print(f"{name}: {said}", flush=True)

    def count(self, name, octets, lines):
        """How often the program asks for memory where it prints these lines."""
        outcome, growths = run(self.program, self.shim, ["check"], octets, {})
        wanted = (0, "".join(f"{line}\n" for line in lines).encode(), b"")
        self.is_right(name, outcome == wanted, f"{str(outcome)[:600]} in place of {str(wanted)[:600]}")
        print(f"{name}: {len(octets):,} octets, {len(growths):,} growths", flush=True)
        return len(growths)

    def in_proportion(self, name, sizes, counts):
        """Whether the counts of larger sizes grow as the sizes do."""
        steps = [(b - a, high - low) for a, b, low, high in zip(sizes, sizes[1:], counts, counts[1:])]
        for (size, count), (more, larger) in zip(steps, steps[1:]):
            most = MOST_MORE * count * more / size
            self.is_right(name, larger <= most, f"{larger:,} growths for {more} more, where {size} more take {count:,}")


def origins(width):
    return [f"roa AS{FIRST_AS + place} 10.{place}.0.0/16 16" for place in range(width)]


def refused(name, cause):
    return f"refused {HOST.decode()}{name} {cause}"


def whole(tests):
    """Lattices in which all chains to an authority end alike."""
    for width in (2, 3):
        name = f"width {width}"
        counts = [tests.count(f"{name}, {height} rows", lattice(width, height).bundle(), origins(width)) for height in HEIGHTS]
        tests.in_proportion(name, HEIGHTS, counts)


def nearly(tests):
    """Lattices in which the last row certifies the row above it again: these two keys are met below."""
    for width in (2, 3):
        name, counts = f"width {width}, the row above again", []
        for height in AGAIN_HEIGHTS:
            above, last = f"r{height - 2}p0", f"r{height - 1}p0"
            lines = [*origins(width), refused(f"{above}/{last}.cer", "loop"), refused(f"{last}/again.cer", "loop")]
            counts.append(tests.count(f"{name}, {height} rows", lattice(width, height, again=height - 2).bundle(), lines))
        tests.in_proportion(name, AGAIN_HEIGHTS, counts)


def apart(tests):
    """Lattices in which the last row certifies the first again: no two chains end alike for long."""
    for width, height in ((2, 3), (2, 4), (2, 5), (3, 3)):
        name = f"width {width}, the first row again, {height} rows"
        octets = lattice(width, height, again=0).bundle()
        walk = rpki_model.walk(octets)
        count = tests.count(name, octets, rpki_model.lines(walk))
        chains = len(walk.accepted)
        alone = tests.count(f"{name}, no row again", lattice(width, height).bundle(), origins(width))
        # (in the lattice alone, each authority's point is read once)
        most = MOST_MORE * alone * chains / (1 + width * height)
        tests.is_right(name, count <= most, f"{count:,} growths for {chains} chains, and {most:,.0f} are right")


def side_by_side(tests):
    """Many authorities of one issuer."""
    counts = []
    for count in SIBLINGS:
        lines = (refused(f"ta/{sibling_at(at).decode()}.cer", "point") for at in range(count))
        counts.append(tests.count(f"{count:,} siblings", siblings(count).bundle(), lines))
    tests.in_proportion("siblings", SIBLINGS, counts)


def main():
    if len(sys.argv) != 2:
        sys.exit(__doc__)
    with tempfile.TemporaryDirectory() as folder:
        tests = Tests(os.path.abspath(sys.argv[1]), compiled(folder))
        for ask in (whole, nearly, apart, side_by_side):
            ask(tests)
    print(f"{tests.passed} passed, {tests.failed} failed")
    sys.exit(1 if tests.failed else 0)


if __name__ == "__main__":
    main()
