#!/usr/bin/env python3
"""Shows that the built program answers each refused growth of its memory as it should.

    growths.py PROGRAM      (PROGRAM is crates/rpki_check/out/rpki_check)

For each case the growths of one run are counted. Then each is refused in turn, and each with all that come
after it. Such a run must either answer exactly as if none were refused, or print `out of memory` to standard
error, with status 1 and nothing on standard output. `refuse_growth.c`, compiled by `cc` and preloaded, does the
refusing; the right answers stand below.

Prints `N passed, M failed`, a run being one test; exits with 1 where one failed.
"""

import os
import sys
import tempfile

sys.dont_write_bytecode = True
sys.path.insert(0, os.path.join(os.path.dirname(os.path.abspath(__file__)), os.pardir, "lib"))

from outcomes import NOT_A_BUNDLE, OUT_OF_MEMORY, TOP  # noqa: E402, before make_bundle
from make_bundle import bundle, locator, made_objects, made_verdicts, object_at  # noqa: E402
from refusals import compiled, refusals, run  # noqa: E402
from rpki_relaxed import ber_roa  # noqa: E402
from rpki_walks import customers, parents, single, trimmed, worked_cases  # noqa: E402

# Version 0, moment 20250101000000Z, depth 32.
HEAD = "020100 180F32303235303130313030303030305A 020120"


def prints(text):
    """The outcome of a run that prints that and finds nothing at fault."""
    return 0, text, b""


def many():
    """The octets of 50 locators, 20 objects and 20 verdicts, and their outcome."""
    names = [b"tal%02d" % number for number in range(50)]
    octets = bundle([locator(name) for name in names], made_objects(20, 300), made_verdicts(20))
    return octets, prints(b"".join(b"refused " + name + b" tal\n" for name in names))


def walks():
    """Worked cases of walks: certificates, lists, manifests and objects, over several chains."""
    lines = {name: stated for name, _, stated in worked_cases()}
    worlds = {"single-roa": single()[0], "two-aspas": customers(), "two-parents": parents(), "trimmed-ca": trimmed()}
    worlds["ber-roa--true"] = ber_roa(True)
    for name, world in worlds.items():
        yield name, (world.bundle(), prints("".join(f"{line}\n" for line in lines[name]).encode()))


def folder():
    """The arguments that bundle the example folder, and their outcome: the example bundle, which has the same parts."""
    examples = os.path.join(TOP, "examples")
    with open(os.path.join(examples, "empty-texts.bundle"), "rb") as octets:
        return ["bundle", os.path.join(examples, "folder")], prints(octets.read())


# What `check` reads, and the right outcome: status, standard output and standard error.
CHECKS = {
    "empty-bundle": (bytes.fromhex(f"301D {HEAD} 3000 3000 3000"), prints(b"")),
    "empty-locator": (
        bytes.fromhex(f"3024 {HEAD} 3007 3005 130178 0400 3000 3000"),
        prints(b"refused x tal\n"),
    ),
    "locator-order": (
        bytes.fromhex(f"302B {HEAD} 300E 3005 130161 0400 3005 130162 0400 3000 3000"),
        prints(b"refused a tal\nrefused b tal\n"),
    ),
    "locator-order, unsorted": (
        bytes.fromhex(f"302B {HEAD} 300E 3005 130162 0400 3005 130161 0400 3000 3000"),
        NOT_A_BUNDLE,
    ),
    "one-object": (bundle(objects=[object_at(b"rsync://a/m/x", b"")]), prints(b"")),
    "many": many(),
    **dict(walks()),
}

# Arguments, standard input and the right outcome.
CASES = {name: (["check"], octets, outcome) for name, (octets, outcome) in CHECKS.items()}
CASES["folder"] = (folder()[0], b"", folder()[1])


def try_case(program, shim, name):
    """Whether each run of the case was right; prints a line for each that was not, and one for the case."""
    words, octets, answer = CASES[name]
    outcome, growths = run(program, shim, words, octets, {})
    results = [outcome == answer]
    if outcome != answer:
        print(f"{name}, nothing refused: {outcome}")
    answered = 0
    for refusal, given in refusals(len(growths)):
        outcome, told = run(program, shim, words, octets, refusal)
        right = outcome in (answer, OUT_OF_MEMORY) and told.startswith("+" * given + "-")
        results.append(right)
        answered += outcome == answer
        if not right:
            print(f"{name}, {refusal}: {outcome}, growths {told}")
    print(f"{name}: {len(growths)} growths, {len(results)} runs, {answered} answered in spite of a refusal")
    return results


def main():
    if len(sys.argv) != 2:
        sys.exit("usage: growths.py PROGRAM")
    program = os.path.abspath(sys.argv[1])
    with tempfile.TemporaryDirectory() as folder:
        shim = compiled(folder)
        results = [result for name in CASES for result in try_case(program, shim, name)]
    failed = results.count(False)
    print(f"{len(results) - failed} passed, {failed} failed")
    sys.exit(1 if failed else 0)


if __name__ == "__main__":
    main()
