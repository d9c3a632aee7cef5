#!/usr/bin/env python3
"""Compares the built program with tests/lib/rpki_model.py on bundles that hostile publishers may have made (rpki_chance.py).

    rpki_random.py PROGRAM [--count N] [--seed N]    N bundles from that seed on; 10,000 take some minutes
    rpki_random.py --kinds [--count N] [--seed N]    without a program: how many bundles have which lines
    rpki_random.py --write N FILE                    the bundle of one seed

With --long the bundles have long chains, to 33 certificates; with --relaxed they are of version 1, mostly, with objects in BER. Prints each bundle that the two answer in different ways, by its seed,
and `N passed, M failed`. The status is 1 where one failed.
"""

import argparse
import collections
import pathlib
import subprocess
import sys

sys.dont_write_bytecode = True
sys.path.insert(0, str(pathlib.Path(__file__).resolve().parents[1] / "lib"))

import rpki_model  # noqa: E402
from outcomes import SECONDS  # noqa: E402
from rpki_chance import bundle_by_chance, long_bundle, relaxed_bundle  # noqa: E402


def wanted(octets):
    found = rpki_model.answer(octets)
    if found is None:
        return 1, b"", b"not a bundle\n"
    return 0, "".join(f"{line}\n" for line in found).encode(), b""


def compare(program, seeds, bundle_of):
    """The seeds whose bundles are answered in different ways."""
    for seed in seeds:
        octets = bundle_of(seed)
        said, right = answer(program, octets), wanted(octets)
        if said != right:
            print(f"seed {seed}: {said}\n  in place of {right}", flush=True)
            yield seed


def answer(program, octets):
    """What a run on a bundle comes to."""
    try:
        done = subprocess.run([program, "check"], input=octets, capture_output=True, timeout=SECONDS)
    except subprocess.TimeoutExpired:
        return None, b"", f"it hadn't ended after {SECONDS} seconds".encode()
    return done.returncode, done.stdout, done.stderr


def kinds(seeds, bundle_of):
    """How many bundles have a line of each kind."""
    found = collections.Counter()
    for seed in seeds:
        status, lines, _ = wanted(bundle_of(seed))
        words = {line.split()[0 if line.startswith((b"roa", b"aspa")) else 2] for line in lines.splitlines()}
        found.update({word.decode() for word in words} if words else {"no line" if status == 0 else "no bundle"})
    return found


def main():
    parser = argparse.ArgumentParser(description=__doc__, formatter_class=argparse.RawDescriptionHelpFormatter)
    parser.add_argument("program", nargs="?")
    parser.add_argument("--count", type=int, default=10_000)
    parser.add_argument("--seed", type=int, default=1)
    parser.add_argument("--kinds", action="store_true")
    parser.add_argument("--long", action="store_true")
    parser.add_argument("--relaxed", action="store_true")
    parser.add_argument("--write", nargs=2, metavar=("SEED", "FILE"))
    given = parser.parse_args()
    bundle_of = long_bundle if given.long else relaxed_bundle if given.relaxed else bundle_by_chance
    seeds = range(given.seed, given.seed + given.count)
    if given.write:
        with open(given.write[1], "wb") as file:
            file.write(bundle_of(int(given.write[0])))
    elif given.kinds:
        for word, count in sorted(kinds(seeds, bundle_of).items()):
            print(f"{word}: {count}")
    elif given.program:
        wrong = len(list(compare(given.program, seeds, bundle_of)))
        print(f"{given.count - wrong} passed, {wrong} failed")
        return 1 if wrong else 0
    else:
        parser.error("a program, --kinds or --write")
    return 0


if __name__ == "__main__":
    sys.exit(main())
