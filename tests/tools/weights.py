#!/usr/bin/env python3
"""What the functions of crates weigh in a check: weights.py [--most N] CRATE..

Of each crate that `rt check` or `rt run` has checked, the sizes of the modules that the check made and keeps in
crates/CRATE/out/incremental are added up, for each function and for each kind of module. A MB takes a processor second,
more or less, so the heaviest functions are those to make lighter; Lts is the walk over a function's code, with what is
let go on each way out of it.
"""

import argparse
import collections
import os
import re
import sys

ROOT = os.path.realpath(os.path.join(os.path.dirname(os.path.abspath(__file__)), os.pardir, os.pardir))
MB = 1e6


def modules(crate):
    """The name below the crate and the size of each module that is kept of it."""
    kept = os.path.join(ROOT, "crates", crate, "out", "incremental")
    for at, _, files in os.walk(kept):
        for file in files:
            name = re.fullmatch(rf"Rattle-{crate}-(?:proofs|specs)\.(.*)\.oantt", file)
            if name:
                yield name[1], os.path.getsize(os.path.join(at, file))


def weights(crate):
    """What each function weighs, and each kind of module."""
    functions, kinds = collections.Counter(), collections.Counter()
    for name, size in modules(crate):
        function, _, kind = name.rpartition(".")
        if not kind[:1].isupper():
            function, kind = name, "Definitions"
        functions[function] += size
        kinds[re.sub(r"-.*", "", kind)] += size
    return functions, kinds


def main():
    parser = argparse.ArgumentParser(description="What the functions of crates weigh in a check.")
    parser.add_argument("--most", type=int, default=20, help="how many functions are listed")
    parser.add_argument("crates", nargs="+", metavar="CRATE")
    given = parser.parse_args()
    for crate in given.crates:
        functions, kinds = weights(crate)
        if not functions:
            sys.exit(f"nothing is kept of {crate}: rt check makes it")
        print(f"{crate}: {sum(functions.values()) / MB:.1f} MB")
        print("  " + ", ".join(f"{kind} {size / MB:.1f}" for kind, size in kinds.most_common(8)))
        for function, size in functions.most_common(given.most):
            print(f"  {size / MB:6.2f} {function}")


if __name__ == "__main__":
    main()
