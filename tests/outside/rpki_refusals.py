#!/usr/bin/env python3
"""Compares the reasons that `rpki_ask refusals` and `rpki_ask why` tell with tests/lib/rpki_reasons.py, on bundles by chance.

    rpki_refusals.py PROGRAM [--lines N] [--seed N]

Bundles are asked, from that seed on, until so many refused lines were told (10,000): most are made for their refusals
(rpki_refused.py), others as in rpki_random.py. Of each bundle all refusals are asked in lines and as JSON, and why one of the names is
refused. Prints each answer that differs, with the bundle's kind and seed, then how many refused lines had each reason with
--kinds, and `N passed, M failed` by refused lines; a bundle without any is one. The status is 1 where one failed.
"""

import argparse
import collections
import pathlib
import random
import subprocess
import sys

sys.dont_write_bytecode = True
sys.path.insert(0, str(pathlib.Path(__file__).resolve().parents[1] / "lib"))

import rpki_model  # noqa: E402
from outcomes import SECONDS  # noqa: E402
from rpki_chance import bundle_by_chance, long_bundle, relaxed_bundle  # noqa: E402
from rpki_facts import fact_object, fact_rows, reasons_of, refusal_rows, refusals_object  # noqa: E402
from rpki_reason_words import bare  # noqa: E402
from rpki_refused import by_chance  # noqa: E402

# Kinds of bundles, each with how many seeds there are to one that has it.
MAKERS = {"refused": (by_chance, 1), "any": (bundle_by_chance, 2), "relaxed": (relaxed_bundle, 4), "long": (long_bundle, 16)}
NO_BUNDLE = 2, "", "not a bundle\n"


def ask(program, octets, *words):
    try:
        done = subprocess.run([program, *words], input=octets, capture_output=True, timeout=SECONDS)
    except subprocess.TimeoutExpired:
        return None, "", f"it hadn't ended after {SECONDS} seconds"
    return done.returncode, done.stdout.decode(), done.stderr.decode()


def bundles(seed):
    """All bundles from a seed on."""
    while True:
        for kind, (make, one_in) in MAKERS.items():
            if seed % one_in == 0:
                yield f"{kind} {seed}", make(seed)
        seed += 1


def wanted(found, rng):
    """What is asked of a bundle, with the right answer."""
    if found is None:
        return [(["refusals"], NO_BUNDLE), (["--json", "refusals"], NO_BUNDLE)]
    rows, text = refusal_rows(found), refusals_object(found)
    asked = [(["refusals"], (int(not rows), "".join(f"{row}\n" for row in rows), ""))]
    asked.append((["--json", "refusals"], (int(not rows), f"{text}\n", "")))
    if rows:
        name = rng.choice(reasons_of(found))[0]
        lines = "".join(f"{row}\n" for row in fact_rows(found, name))
        asked.append((["why", name.decode()], (0, lines, "")))
        asked.append((["--json", "why", name.decode()], (0, fact_object(found, name) + "\n", "")))
    return asked


def differences(program, asked, octets):
    for words, right in asked:
        said = ask(program, octets, *words)
        if said != right:
            yield " ".join(words), said, right


def main():
    parser = argparse.ArgumentParser(description=__doc__, formatter_class=argparse.RawDescriptionHelpFormatter)
    parser.add_argument("program")
    parser.add_argument("--lines", type=int, default=10_000)
    parser.add_argument("--seed", type=int, default=1)
    parser.add_argument("--kinds", action="store_true", help="tell how many lines had each reason")
    given = parser.parse_args()
    passed, failed, kinds = 0, 0, collections.Counter()
    for name, octets in bundles(given.seed):
        found = rpki_model.walk(octets)
        wrong = list(differences(given.program, wanted(found, random.Random(name)), octets))
        for question, said, right in wrong:
            print(f"{name}: {question}: {said}\n  in place of {right}", flush=True)
        rows = reasons_of(found) if found else []
        kinds.update(bare(row[2]) for row in rows)
        passed, failed = (passed, failed + 1) if wrong else (passed + max(len(rows), 1), failed)
        if kinds.total() >= given.lines:
            break
    for words, count in sorted(kinds.items()) if given.kinds else ():
        print(f"{count} {words}")
    print(f"{kinds.total()} refused lines, {len(kinds)} reasons")
    print(f"{passed} passed, {failed} failed")
    return 1 if failed else 0


if __name__ == "__main__":
    sys.exit(main())
