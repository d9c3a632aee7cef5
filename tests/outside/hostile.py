#!/usr/bin/env python3
"""Asks the built program about worked and hostile bundles, cut ones, and ones with an octet flipped.

    hostile.py PROGRAM        (PROGRAM is crates/rpki_check/out/rpki_check, or another build of it)

Each part of the worked cases of walks and each hostile repository (rings of issuers, manifests that list others' names,
authorities that name others' places, extensions once more and twice, 10,000 values in each other, lengths of
84 FF FF FF FF, ..) goes in on standard input; the lines come from the cases, or from the second reading of the rules
(`rpki_model.py`). Each proper front of a bundle has to be none. With the lowest bit of each octet of each object flipped in
turn, a line of an origin or a customer may go, and none may come or change: of small worked bundles, and of one with octets
of RSA's sizes (`bench/repository.py`), whose octets are drawn by chance.

Prints a line for each test that failed, and `N passed, M failed`; exits with 1 where one failed. Takes a minute or two.
"""

import os
import random
import subprocess
import sys

sys.dont_write_bytecode = True
sys.path.insert(0, os.path.join(os.path.dirname(os.path.abspath(__file__)), os.pardir, "lib"))

import rpki_model  # noqa: E402
import rpki_walks  # noqa: E402
from outcomes import NOT_A_BUNDLE, SECONDS  # noqa: E402, before repository
from repository import Repository, StandIn  # noqa: E402

# Authorities, ROAs and ASPAs of each, and keys of the bundle of RSA's sizes; how many of its octets are flipped.
SIZES, FLIPS = (3, 4, 2, 4), 2_000


class Tests:
    def __init__(self, program):
        self.program, self.passed, self.failed = program, 0, 0

    def run(self, octets):
        """One run's status and what it printed on both streams."""
        done = subprocess.run([self.program, "check"], input=octets, capture_output=True, timeout=SECONDS)
        return done.returncode, done.stdout, done.stderr

    def judge(self, name, holds, got):
        self.passed, self.failed = self.passed + holds, self.failed + (not holds)
        if not holds:
            print(f"{name}: {got}", flush=True)

    def gives(self, name, octets, wanted):
        got = self.run(octets)
        self.judge(name, got == wanted, got)

    def repositories(self):
        """Worked and hostile repositories, with their lines."""
        for name, world, lines in rpki_walks.worked_cases():
            octets = world.bundle()
            lines = rpki_model.answer(octets) if lines is None else lines
            self.gives(name, octets, (0, text_of(lines), b""))
        for name, world in rpki_walks.hostile():
            octets = world.bundle()
            self.gives(name, octets, (0, text_of(rpki_model.answer(octets)), b""))

    def fronts(self, name, octets):
        """Each proper front of a bundle."""
        for size in range(len(octets)):
            self.gives(f"{name}: its first {size} octets", octets[:size], NOT_A_BUNDLE)

    def flip(self, name, octets, at):
        """A line may go, and none may come or change: one octet's lowest bit is flipped."""
        changed = octets[:at] + bytes([octets[at] ^ 1]) + octets[at + 1 :]
        status, text, told = self.run(changed)
        holds = status == 0 and not told and attested(text) <= self.lines
        self.judge(f"{name}: octet {at} flipped", holds, (status, text, told))

    def flips(self, name, octets, objects, most=None):
        """The octets of objects, each in turn, or as many as that by chance."""
        status, text, _ = self.run(octets)
        self.lines = attested(text)
        self.judge(f"{name}: its lines", status == 0 and bool(self.lines), (status, text))
        places = sorted(at for one in objects for at in places_of(octets, one))
        for at in places if most is None else random.Random(1).sample(places, most):
            self.flip(name, octets, at)


def text_of(lines):
    return "".join(f"{line}\n" for line in lines).encode()


def attested(text):
    """The lines of origins and customers."""
    return {line for line in text.splitlines() if not line.startswith(b"refused ")}


def places_of(octets, one):
    """The places of an object's octets in a bundle, which has them once."""
    start = octets.index(one)
    assert octets.find(one, start + 1) < 0
    return range(start, start + len(one))


def main():
    if len(sys.argv) != 2:
        sys.exit(__doc__)
    tests = Tests(os.path.abspath(sys.argv[1]))
    tests.repositories()
    small = {
        "single-roa": rpki_walks.single()[0],
        "two-aspas": rpki_walks.customers(),
        "two-parents": rpki_walks.parents(),
        "trimmed-ca": rpki_walks.trimmed(),
    }
    for name, world in small.items():
        octets = world.bundle()
        tests.fronts(name, octets)
        tests.flips(name, octets, world.objects.values())
    large = Repository(*SIZES, StandIn)
    tests.flips("octets of RSA's sizes", large.bundle(), large.objects.values(), FLIPS)
    print(f"{tests.passed} passed, {tests.failed} failed")
    sys.exit(1 if tests.failed else 0)


if __name__ == "__main__":
    main()
