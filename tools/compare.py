#!/usr/bin/env python3
"""Shadow mode: compares the routes that tools/validate.py wrote with another validator's.

    compare.py OURS OTHER [--bundle B [--checker PATH] [--asker PATH]] [--summary]

OURS and OTHER are JSON of validate.py, rpki-client, Routinator (`json`, `jsonext`) or FORT, or CSV of any of them (which
has no customers). Each origin and each customer with its providers that one has and the other lacks is listed as a line of
`rpki_check`, after `ours alone:` or `other alone:`; then a summary tells how many there are, by cause. Where a customer's
providers differ, both lines are listed.

With --bundle, the bundle that OURS came of (a file, or a folder that validate.py kept), the reasons stand below each line:

  good OBJECT LOCATOR CHAIN..      what `rpki_ask why` says of an object that lists it: it is good, by this chain
  refused NAME CAUSE: ..; by ..    an object that lists it is refused, why, and on which chain; `rpki_ask why` has the same line
  unlisted OBJECT                  an object of the bundle lists it, and no accepted authority lists that object: it is
                                   neither good nor refused
  above refused NAME CAUSE: ..     and one of the certificates above it, as these name their issuers themselves, is refused
  absent URI                       OTHER names this object as the source, and the bundle has none there

What no line says isn't known: that no object of the bundle lists it is all that can be told of some, and of what OURS has
alone never why OTHER lacks it. What an object lists is read here, outside what is proved.

`rpki_check check` is run once for all refusals, `rpki_ask refusals` once for their reasons, and `rpki_ask why` once for each
trust anchor that the bundle has: every good object is below one of them. The programs are crates/NAME/out/NAME, where these
were proved and built, or else bin/NAME, which tools/build.py makes; the summary says which. --summary prints that alone.

Exit status: 0 where both have the same, 1 where they differ, 2 for other arguments and for what can't be read or asked.
"""

import argparse
import collections
import hashlib
import os
import re
import subprocess
import sys
import time

sys.dont_write_bytecode = True

import built  # noqa: E402
from bundles import Bundle, Malformed, lookup_key  # noqa: E402
from routes import BadRoutes, Customer, read  # noqa: E402

SAME, DIFFERENT, FAULT = 0, 1, 2
# So many certificates are looked at above an object; a bundle's chains have no more.
MOST_ABOVE = 32
SIDES = ("ours alone", "other alone")
# The part of a reason that names something stands behind these words; the summary leaves it out.
NAMED = re.compile(r"(overclaims|unheld prefix|unheld customer|missing file|changed file) .*")


class Fault(Exception):
    """What can't be read or asked."""


# Why a line stands on one side alone: rows that say so, and the cause in the summary.
Reason = collections.namedtuple("Reason", "rows cause")


class Answers:
    """What the programs say of a bundle: refusals by name, and the rows of good objects among those asked about."""

    def __init__(self, bundle, checker, asker, wanted):
        self.bundle, self.refused, self.good = bundle, {}, {}
        for line in self.lines([checker, "check"], (0,)):
            if line.startswith("refused "):
                self.refused.setdefault(line.split(" ")[1], []).append(line)
        self.add_reasons(self.lines([asker, "refusals"], (0, 1)))
        for uri in bundle.anchors():
            for line in self.lines([asker, "why", uri], (0, 1)):
                parts = line.split(" ")
                if parts[0] == "good" and parts[1] in wanted:
                    self.good.setdefault(parts[1], []).append(line)

    def add_reasons(self, told):
        """Puts in the place of each refusal the lines that tell its reasons, on one chain each."""
        reasons = collections.defaultdict(list)
        for line in told:
            reasons[line.partition(": ")[0]].append(line)
        self.refused = {name: [row for line in rows for row in reasons[line] or [line]] for name, rows in self.refused.items()}

    def lines(self, words, statuses):
        """What a program prints of the bundle, line by line."""
        try:
            with open(self.bundle.path, "rb") as file:
                run = subprocess.Popen(words, stdin=file, stdout=subprocess.PIPE, text=True, errors="replace")
        except OSError as why:
            raise Fault(f"{words[0]}: {why.strerror}") from None
        with run:
            yield from (line.rstrip("\n") for line in run.stdout)
        if run.returncode not in statuses:
            raise Fault(f"{' '.join(words)} ended with status {run.returncode}")

    def above(self, uri):
        """The refusals of the first certificate above an object that has one, as they name their issuers themselves."""
        for _ in range(MOST_ABOVE):
            uri = self.bundle.issuer(uri)
            if uri is None:
                return []
            if uri in self.refused:
                return self.refused[uri]
            names = [name for name, uris in self.bundle.locators.items() if uri in uris and name in self.refused]
            if names:
                return self.refused[names[0]]
        return []

    def of_object(self, uri):
        """What is known of an object that lists the line in question."""
        good, refused = self.good.get(uri, []), self.refused.get(uri, [])
        if good or refused:
            return Reason(good + refused, "good" if good else f"refused: {reason_of(refused[0])}")
        above = self.above(uri)
        rows = [f"unlisted {uri}", *(f"above {row}" for row in above)]
        causes = f", above it refused: {reason_of(above[0])}" if above else ""
        return Reason(rows, f"no accepted authority lists the object{causes}")


def reason_of(row):
    """The reason of a refusal, or its cause, as the summary counts it."""
    first, found, said = row.partition(": ")
    return NAMED.sub(r"\1", said.rpartition("; by ")[0]) if found else first.split(" ")[-1]


class Why:
    """The reasons of all lines in question."""

    def __init__(self, bundle, programs, questions, ours, other):
        self.bundle, self.told = bundle, (ours, other)
        self.sources = {one: set(map(lookup_key, other.origins[one])) for one in questions if other.origins.get(one)}
        self.objects = self.listing(questions)
        wanted = {uri for found in (self.objects, self.sources) for uris in found.values() for uri in uris}
        self.answers = Answers(bundle, *programs, wanted)

    def listing(self, questions):
        """The objects of the bundle that list each line in question; a customer's are all of that customer."""
        keys = {key_of(one) for one in questions}
        found = collections.defaultdict(list)
        for uri, listed in self.bundle.attestations():
            for key in {key_of(one) for one in listed} & keys:
                found[key].append(uri)
        return found

    def of(self, side, one):
        """Why a line stands on that side alone."""
        uris = self.objects.get(key_of(one), [])
        reasons = [self.answers.of_object(uri) for uri in uris]
        reasons += [self.of_source(uri) for uri in sorted(self.sources.get(one, ())) if uri not in uris]
        causes = {reason.cause for reason in reasons}
        return Reason([row for reason in reasons for row in reason.rows], self.cause(side, one, causes))

    def cause(self, side, one, causes):
        """The cause in the summary, of those that the objects have which list the line."""
        if isinstance(one, Customer) and one.asn in (self.told[1 - side].customers or {}):
            return "the other has other providers"
        if side == 0 and "good" not in causes or side == 1 and "good" in causes:
            return "OURS is of another bundle, which doesn't agree"
        return "good" if side == 0 else "; ".join(sorted(causes)) or "no object of the bundle lists it"

    def of_source(self, uri):
        """What is known of an object that OTHER names, and that doesn't list the line in the bundle."""
        if uri not in self.bundle.places:
            return Reason([f"absent {uri}"], "OTHER's object isn't in the bundle")
        reason = self.answers.of_object(uri)
        return Reason(reason.rows, f"OTHER's object lists other things in the bundle, {reason.cause}")


def key_of(one):
    """What an object has to list for a line: the origin itself, or the customer."""
    return one.asn if isinstance(one, Customer) else one


def differences(ours, other):
    """What each has alone, in order; of customers only where both tell of them."""
    sides = [set(ours.origins) - set(other.origins), set(other.origins) - set(ours.origins)]
    customers = [ours.all_customers(), other.all_customers()]
    if ours.customers is None or other.customers is None:
        customers = [set(), set()]
    found = (customers[0] - customers[1], customers[1] - customers[0])
    return [sorted(origins) + sorted(alone) for origins, alone in zip(sides, found)]


def counted(items):
    customers = sum(isinstance(one, Customer) for one in items)
    return f"{len(items) - customers:,} origins, {customers:,} customers"


def described(title, path, routes):
    """What a file is, on a line."""
    made = "" if routes.made is None else time.strftime(", made %Y-%m-%dT%H:%M:%SZ", time.gmtime(routes.made))
    customers = "no customers told" if routes.customers is None else f"{len(routes.customers):,} customers"
    return f"{title} {path}: {routes.form}{made}, {len(routes.origins):,} origins, {customers}"


def summary(given, ours, other, sides, causes):
    """The summary's lines."""
    yield described("ours", given.ours, ours)
    yield described("other", given.other, other)
    if ours.made is not None and other.made is not None and ours.made != other.made:
        later, by = ("OURS", ours.made - other.made) if ours.made > other.made else ("OTHER", other.made - ours.made)
        yield f"{later} was made {by:,} s later"
    if ours.customers is None or other.customers is None:
        yield "customers aren't compared, since one of the two tells of none"
    if given.bundle:
        yield "asked: " + ", ".join(one.text() for one in given.programs)
    if given.bundle and ours.bundle is None:
        yield "OURS doesn't say which bundle it came of"
    both = len(ours.origins.keys() & other.origins.keys())
    yield f"in both: {both:,} origins, {len(ours.all_customers() & other.all_customers()):,} customers"
    for title, items, found in zip(SIDES, sides, causes):
        yield f"{title}: {counted(items)}"
        yield from (f"  {cause}: {count:,}" for cause, count in sorted(found.items()))


def open_bundle(given, ours):
    """The bundle, which has to be the one that OURS says it came of, where OURS says so."""
    bundle = Bundle(given.bundle)
    if ours.bundle is not None and hashlib.sha256(bundle.octets).hexdigest() != ours.bundle:
        raise Fault(f"{given.ours} came of another bundle than {bundle.path}")
    return bundle


def compare(given):
    """Prints what differs; whether anything does."""
    ours, other = read(given.ours), read(given.other)
    sides = differences(ours, other)
    causes = [collections.Counter(), collections.Counter()]
    why = None
    if given.bundle:
        programs = [one.path for one in given.programs]
        why = Why(open_bundle(given, ours), programs, {*sides[0], *sides[1]}, ours, other)
    for side, items in enumerate(sides):
        for one in items:
            reason = why.of(side, one) if why else Reason([], None)
            causes[side].update([reason.cause] if why else [])
            if not given.summary:
                print(f"{SIDES[side]}: {one}", *(f"  {row}" for row in reason.rows), sep="\n")
    for line in summary(given, ours, other, sides, causes):
        print(line)
    return DIFFERENT if any(sides) else SAME


def main():
    parser = argparse.ArgumentParser(description=__doc__, formatter_class=argparse.RawDescriptionHelpFormatter)
    parser.add_argument("ours", metavar="OURS", help="what validate.py wrote")
    parser.add_argument("other", metavar="OTHER", help="what another validator wrote")
    parser.add_argument("--bundle", metavar="B", help="the bundle of OURS, or a folder that validate.py kept")
    parser.add_argument("--summary", action="store_true", help="the summary alone")
    for name, program in (("checker", "rpki_check"), ("asker", "rpki_ask")):
        parser.add_argument(f"--{name}", metavar="PATH", help=f"the program {program}")
    given = parser.parse_args()
    given.programs = (built.find("rpki_check", given.checker), built.find("rpki_ask", given.asker))
    try:
        return compare(given)
    except (OSError, BadRoutes, Malformed, Fault) as why:
        print(f"compare.py: {why}", file=sys.stderr)
        return FAULT


if __name__ == "__main__":
    sys.exit(main())
