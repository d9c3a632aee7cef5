#!/usr/bin/env python3
"""Asks tools/quarantine.py whom it leaves out of a bundle, and what the bundle then is.

    crowded.py

Bundles are made whose chains are many, and told is what `rpki_ask cost` would print: counts of all accepted chains by a second
reading of the rules (`rpki_model`), and of the first 10, 30 and 100 alone, as where a budget ends. Who is left out is stated for
each: the holder above a lattice, and not the provider above it and others, nor one of the lattice; the issuer of many certificates
of one key, below which there are many files; each of two in turn; and nobody of a tree, of siblings and of two certificates of
one key. What is written is compared octet by octet with the bundle that is made without these objects, of both versions. Objects
with octets by chance, and manifests in BER, don't keep an authority in.

Prints a line for each answer that isn't right, and `N passed, M failed`; exits with 1 where one failed.
"""

import collections
import os
import random
import sys
import tempfile

sys.dont_write_bytecode = True
HERE = os.path.dirname(os.path.abspath(__file__))
sys.path[:0] = [os.path.join(HERE, os.pardir, "lib"), os.path.join(HERE, os.pardir, os.pardir, "tools")]

import cutting  # noqa: E402
import quarantine  # noqa: E402
import rpki_model  # noqa: E402
from rpki_lattices import FIRST_AS, counted, crowded, rows_below, siblings  # noqa: E402
from rpki_relaxed import CONTENT, indefinite, nested, spelled  # noqa: E402
from rpki_repositories import HOST, World, roa  # noqa: E402

BUDGETS = (10, 30, 100)
FLIPS = 300


class Tests:
    def __init__(self, folder):
        self.path, self.made = os.path.join(folder, "bundle"), os.path.join(folder, "made")
        self.passed = self.failed = 0

    def same(self, name, got, wanted):
        self.passed, self.failed = self.passed + (got == wanted), self.failed + (got != wanted)
        if got != wanted:
            print(f"{name}: {str(got)[:400]}, and {str(wanted)[:400]} is right", flush=True)

    def found(self, octets, text, is_least=False):
        with open(self.path, "wb") as file:
            file.write(octets)
        return quarantine.find(self.path, text, is_least)

    def leaves_out(self, name, world, authority, rows=None):
        """Whether that authority, or nobody, is left out by these counts, or those of all accepted chains."""
        octets = world.bundle()
        rows = rpki_model.walk(octets).chains_below() if rows is None else rows
        found = self.found(octets, counted(rows))
        if authority is None:
            return self.same(name, found, None)
        uri, manifests = authority.at.decode(), [authority.manifest.decode()]
        chains = {uri: chains for chains, uri in rows}[authority.at]
        return self.same(name, found, quarantine.Found(uri, chains, False, manifests))

    def is_without(self, name, world, uris):
        """Whether the bundle without these objects is the one that is made without them."""
        with open(self.path, "wb") as file:
            file.write(world.bundle())
        cutting.write_without(self.path, self.made, [uri.decode() for uri in uris])
        with open(self.made, "rb") as file:
            made = file.read()
        os.remove(self.made)
        self.same(name, made == without(world, uris).bundle(), True)


def without(world, uris):
    """The world without the objects at these URIs."""
    made = World(world.depth)
    made.locators, made.verdicts, made.relaxed = world.locators, world.verdicts, world.relaxed
    made.objects = {uri: octets for uri, octets in world.objects.items() if uri not in uris}
    return made


def of_budget(world, budget):
    """Counts of the first chains alone."""
    chains = rpki_model.walk(world.bundle()).accepted[:budget]
    counts = collections.Counter(uri for _, chain, _, _ in chains for uri in chain[:-1])
    return sorted(((chains, uri) for uri, chains in counts.items()), key=lambda row: (-row[0], row[1]))


def lattices(tests):
    world, (first, second, _) = crowded()
    rows = rpki_model.walk(world.bundle()).chains_below()
    tests.same("above most", [uri for _, uri in rows[:2]], [HOST + b"ta.cer", HOST + b"ta/isp.cer"])
    tests.leaves_out("the first of two", world, first)
    for budget in BUDGETS:
        tests.leaves_out(f"the first of two, {budget} chains", world, first, of_budget(world, budget))
    rest = without(world, {first.manifest})
    tests.leaves_out("then the second", rest, second)
    tests.leaves_out("then nobody", without(rest, {second.manifest}), None)
    tests.is_without("its bundle", world, [first.manifest])


def depths(tests):
    """Of a bundle of little depth chains are few, however they would go on."""
    world, (first, _, _) = crowded()
    world.depth = 4
    tests.leaves_out("depth 4", world, None)
    world.depth = 8
    tests.leaves_out("depth 8", world, first)


def one_key(tests):
    """Many certificates of one key, whose publication point has many files; with two, it is nobody's fault."""
    for count, is_found in ((2, False), (30, True)):
        world = World()
        anchor = world.anchor(1, {"ipv4": ["10.0.0.0/8"]})
        issuer = world.authority(2, HOST + b"i/", b"i")
        child = world.authority(3, HOST + b"c/", b"c", HOST + b"i/c.cer")
        anchor.certify(b"i.cer", issuer, {"ipv4": "inherit"})
        for at in range(count):
            issuer.certify(b"c%d.cer" % at, child, {"ipv4": "inherit"})
        for at in range(20):
            child.add_roa(b"o%d.roa" % at, roa(FIRST_AS + at, f"10.{at}.0.0/16"), {"ipv4": "inherit"})
        for authority in (child, issuer, anchor):
            authority.publish()
        tests.leaves_out(f"{count} certificates of a key", world, issuer if is_found else None)


def trees(tests):
    tests.leaves_out("siblings", siblings(50), None)
    world, above = World(), None
    anchor = above = world.anchor(1, {"ipv4": ["10.0.0.0/8"]})
    for row in rows_below(world, [anchor], 1, 20, 2):
        above.publish()
        above = row[0]
    above.publish()
    tests.leaves_out("a long chain", world, None)
    tests.leaves_out("nobody is told", world, None, [])
    tests.leaves_out("the anchor alone is told", world, None, [(10**6, anchor.at)])
    tests.same("no bundle's authority", tests.found(world.bundle(), f"9 {HOST.decode()}none.cer\n"), None)


def names(tests):
    """An authority may name a folder that has others' in it, and first a place that isn't by rsync: its manifest is left out."""
    entries = [(5, b"https://r.example/m/a/"), (5, HOST), (10, b"https://r.example/m/a.mft"), (10, HOST + b"a.mft")]
    world, (first, _, _) = crowded(named=(HOST, entries))
    tests.same("a folder around others': its manifest", first.manifest in world.objects, True)
    tests.leaves_out("a folder around others'", world, first)


def others(tests):
    """Who certifies the keys of those above it, or of others that have many files, is left out, and not these."""

    def upward(_, provider, first):
        first.certify(b"up.cer", provider, {"ipv4": "inherit"})

    def sideways(anchor, _, first):
        big = anchor.world.authority(900, HOST + b"big/", b"big")
        anchor.certify(b"big.cer", big, {"ipv4": ["10.0.0.0/8"]})
        for at in range(60):
            big.add_roa(b"o%d.roa" % at, roa(FIRST_AS + at, f"10.{at}.0.0/16"), {"ipv4": [f"10.{at}.0.0/16"]})
        big.publish()
        first.certify(b"big.cer", big, {"ipv4": "inherit"})

    for name, before in (("above it", upward), ("beside it", sideways)):
        world, (first, second, _) = crowded(before=before)
        # (the second, who does nothing else, is left out before)
        tests.leaves_out(f"keys {name}, the second", world, second)
        rest = without(world, {second.manifest})
        tests.leaves_out(f"keys {name}", rest, first)
        tests.leaves_out(f"keys {name}, then nobody", without(rest, {first.manifest}), None)


def spellings(tests):
    """Manifests in BER, whose strings have pieces in each other."""
    for name, ways in (("no lengths", {(): indefinite, CONTENT: indefinite}), ("pieces", {CONTENT: nested(200)})):
        world, (first, _, _) = crowded()
        world.relaxed = True
        rows = rpki_model.walk(world.bundle()).chains_below()
        for uri in [uri for uri in world.objects if uri.endswith(b".mft")]:
            world.objects[uri] = spelled(world.objects[uri], {at: way for at, way in ways.items() if name == "pieces" or at == ()})
        tests.leaves_out(f"manifests in BER: {name}", world, first, rows)
        tests.is_without(f"manifests in BER: {name}: its bundle", world, [first.manifest])


def oddities(tests):
    """Objects with octets by chance: there is an answer."""
    world, _ = crowded(height=3)
    rng, whole = random.Random(60), dict(world.objects)
    text = counted(rpki_model.walk(world.bundle()).chains_below())
    for _ in range(FLIPS):
        world.objects = dict(whole)
        for uri in rng.sample(sorted(whole), 10):
            octets = bytearray(whole[uri])
            for at in rng.sample(range(len(octets)), 3):
                octets[at] = rng.randrange(256)
            world.objects[uri] = bytes(octets[: rng.randrange(1, len(octets) + 1)] if rng.random() < 0.2 else octets)
        found = tests.found(world.bundle(), text)
        tests.same("octets by chance", found is None or {uri.encode() for uri in found.manifests} <= whole.keys(), True)


def rewritten(tests):
    """Objects left out at each place, of bundles of both versions."""
    world = siblings(12)
    uris = sorted(world.objects)
    for relaxed in (None, False, True):
        world.relaxed = relaxed
        for gone in ([], uris[:1], uris[-1:], uris[:3], uris[4:6] + uris[8:9], uris, [HOST + b"none"]):
            tests.is_without(f"{len(gone)} left out, {relaxed}", world, gone)


def main():
    with tempfile.TemporaryDirectory() as folder:
        tests = Tests(folder)
        for ask in (lattices, depths, one_key, trees, names, others, spellings, oddities, rewritten):
            ask(tests)
    print(f"{tests.passed} passed, {tests.failed} failed")
    sys.exit(1 if tests.failed else 0)


if __name__ == "__main__":
    main()
