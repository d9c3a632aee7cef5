#!/usr/bin/env python3
"""Compares the program `rpki_ask` with tests/lib/rpki_model.py on worked cases and on bundles by chance.

    rpki_asks.py PROGRAM [--count N] [--seed N]

Of each bundle it is asked why each name and URI is attested or refused, what the judge says of each witness and of ones
that are none, what some URIs can reach, and how many chains go on below each authority. Prints each answer that differs, with the bundle's seed or name. The status
is 1 where there was one. The last line is `N passed, M failed`, by bundles.
"""

import argparse
import json
import pathlib
import random
import subprocess
import sys

sys.dont_write_bytecode = True
sys.path.insert(0, str(pathlib.Path(__file__).resolve().parents[1] / "lib"))

import rpki_model  # noqa: E402
from outcomes import SECONDS  # noqa: E402
from rpki_chance import bundle_by_chance, long_bundle  # noqa: E402
from rpki_facts import fact_object, fact_rows  # noqa: E402
from rpki_model import run_text  # noqa: E402
from rpki_walks import worked_cases  # noqa: E402


LONG = 4  # of so many seeds one has a bundle with long chains, too


def ask(program, octets, *words):
    done = subprocess.run([program, *words], input=octets, capture_output=True, timeout=SECONDS)
    return done.returncode, done.stdout.decode(), done.stderr.decode()


def why(found, name):
    """A line for each fact."""
    rows = fact_rows(found, name)
    return int(not rows), "".join(f"{row}\n" for row in rows), ""


def why_object(found, name):
    """The facts as one JSON object, on a line."""
    return int(not fact_rows(found, name)), fact_object(found, name) + "\n", ""


def reach(found, uris):
    reached = found.reach(uris)
    if reached is None:
        return 0, "locator\n", ""
    rows = [f"{kind} " + ", ".join(run_text(kind, *run) for run in reached[kind]) for kind in ("as", "ipv4", "ipv6")]
    return int(not any(reached.values())), "".join(f"{row}\n" for row in rows), ""


def judged(found, witness):
    good, count = witness in found.witnesses, found.points_read(*witness[1:])
    assert not good or count == len(witness[1]), witness
    return int(not good), f"{'yes' if good else 'no'}\npoints {count}\n", ""


def cost_lines(word, rows):
    return f"{word}\n" + "".join(f"{number} {uri.decode()}\n" for number, uri in rows)


def cost_object(rows):
    below = [{"chains": number, "authority": uri.decode()} for number, uri in rows]
    return json.dumps({"exact": True, "below": below}, separators=(",", ":")) + "\n"


def is_part(said, found, limit):
    """Whether that is said where fewer chains are counted than there are: no number is more than the second reading's, the
    rows are in order, and all are of so many chains."""
    status, text, faults = said
    first, *lines = text.splitlines()
    rows = [(int(number), uri.encode()) for number, uri in (line.split(" ") for line in lines)]
    whole = {uri: number for number, uri in found.chains_below()}
    fits = all(0 < number <= whole.get(uri, 0) for number, uri in rows)
    longest = max((len(chain) for _, chain, _, _ in found.accepted), default=0)
    few = max((number for number, _ in rows), default=0) <= limit and sum(number for number, _ in rows) <= limit * longest
    ordered = rows == sorted(rows, key=lambda row: (-row[0], row[1])) and len({uri for _, uri in rows}) == len(rows)
    return (status, first, faults) == (1, "at least", "") and fits and few and ordered


def costs(program, rng, octets, found):
    """What was asked of the cost and answered wrongly: with no limit, with just enough, and with less."""
    rows, number = found.chains_below(), len(found.accepted)
    exact = 0, cost_lines("exactly", rows), ""
    for words in (["cost"], ["cost", str(number)], ["cost", str(number + 1)]):
        said = ask(program, octets, *words)
        if said != exact:
            yield " ".join(words), said, exact
    said = ask(program, octets, "--json", "cost")
    if said != (0, cost_object(rows), ""):
        yield "--json cost", said, cost_object(rows)
    for limit in {0, number - 1, rng.randrange(number)} if number else ():
        said = ask(program, octets, "cost", str(limit))
        if not is_part(said, found, limit):
            yield f"cost {limit}", said, "at least some of " + repr(rows)


def witnesses(rng, found):
    """Those of the walk, and changed ones."""
    rows = sorted(found.witnesses)
    keys = sorted(found.held)
    for locator, chain, file in rng.sample(rows, min(len(rows), 4)):
        yield locator, chain, file
        yield b"other", chain, file
        yield locator, (*chain, chain[-1]), file
        yield locator, chain, rng.choice(keys)
        yield locator, chain[:-1] or (rng.choice(keys),), file
        yield locator, tuple(rng.choice(keys) if rng.random() < 0.3 else uri for uri in chain), file
    if keys:
        yield b"t", (rng.choice(keys),), rng.choice(keys)


def differences(program, rng, octets):
    """What was asked of a bundle and answered wrongly."""
    found = rpki_model.walk(octets)
    if found is None:
        said = ask(program, octets, "why", "x")
        if said != (2, "", "not a bundle\n"):
            yield "why x", said, "not a bundle"
        return
    keys = sorted(found.held)
    names = sorted({name for name, _ in found.refusals} | set(rng.sample(keys, min(len(keys), 6))))
    for name in names:
        said = ask(program, octets, "why", name.decode())
        if said != why(found, name):
            yield f"why {name}", said, why(found, name)
        said = ask(program, octets, "--json", "why", name.decode())
        if said != why_object(found, name):
            yield f"--json why {name}", said, why_object(found, name)
    for witness in witnesses(rng, found):
        locator, chain, file = witness
        said = ask(program, octets, "judge", locator.decode(), file.decode(), *(uri.decode() for uri in chain))
        if said != judged(found, witness):
            yield f"judge {witness}", said, judged(found, witness)
    for _ in range(3):
        uris = rng.sample(keys, min(len(keys), rng.randrange(1, 4))) or [b"x"]
        said = ask(program, octets, "reach", *(uri.decode() for uri in uris))
        if said != reach(found, uris):
            yield f"reach {uris}", said, reach(found, uris)
    yield from costs(program, rng, octets, found)


def bundles(given):
    for name, world, _ in worked_cases():
        yield name, world.bundle()
    for seed in range(given.seed, given.seed + given.count):
        yield f"seed {seed}", bundle_by_chance(seed)
        if seed % LONG == 0:
            yield f"seed {seed}, long chains", long_bundle(seed)


def main():
    parser = argparse.ArgumentParser(description=__doc__, formatter_class=argparse.RawDescriptionHelpFormatter)
    parser.add_argument("program")
    parser.add_argument("--count", type=int, default=1000)
    parser.add_argument("--seed", type=int, default=1)
    given = parser.parse_args()
    rng, passed, failed = random.Random(given.seed), 0, 0
    for name, octets in bundles(given):
        wrong = list(differences(given.program, rng, octets))
        for question, said, right in wrong:
            print(f"{name}: {question}: {said}\n  in place of {right}")
        passed, failed = passed + (not wrong), failed + bool(wrong)
    print(f"{passed} passed, {failed} failed")
    return 1 if failed else 0


if __name__ == "__main__":
    sys.exit(main())
