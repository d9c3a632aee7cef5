#!/usr/bin/env python3
"""Asks the built programs about long chains, many URIs and large bundles.

    large.py RPKI_CHECK RPKI_ASK QUESTIONS [--small | --huge]      (QUESTIONS is the program of tests/program)

Chains of 1, 2, 31, 32 and 33 certificates stand below a locator, each authority with an origin of its own, in bundles of depth 1, 31
and 32: printed is what the first ones attest, as many as the depth allows, and that the next certificate is refused. Each good
object is judged by its chain, and the one below the longest chain by a chain that is longer than the depth. In lattices each
authority of a row certifies all of the next row, so that many chains end alike: 2^3, 8^8 and 3^30. How many chains go on below
each certificate is asked of small ones, and of 2^32 with a limit. 70 URIs of 70
authorities are asked what they reach, together, and which chains name them; and once 69 that nobody names, with one that is
named. Bundles have some octets in large files that manifests list: 17 MB, with --huge 64 and 200 MB, too, and with --small
2 MB. tools/lines_to.py and tools/slurm.py are measured over many lines: an origin more takes 100 octets of memory at most.
All answers are stated here, but of small lattices in which a key is certified again below: these are those of the second
reading (`rpki_model`).

Prints a line for each answer that isn't right, and `N passed, M failed`; exits with 1 where one failed.
"""

import argparse
import hashlib
import os
import subprocess
import sys
import tempfile
import time

sys.dont_write_bytecode = True
sys.path.insert(0, os.path.join(os.path.dirname(os.path.abspath(__file__)), os.pardir, "lib"))

import rpki_model  # noqa: E402
from outcomes import SLOWER  # noqa: E402
from rpki_lattices import FIRST_AS, lattice, name_at  # noqa: E402
from rpki_repositories import HOST, World, roa  # noqa: E402

SECONDS = 120 * SLOWER
MEGABYTE = 1_000_000
MANY = 70
TOOLS = os.path.join(os.path.dirname(os.path.abspath(__file__)), os.pardir, os.pardir, "tools")
# So many origins there are before and after, and so many octets of memory one more may take.
ORIGINS, MOST_OCTETS = (20_000, 200_000), 100
# Runs a program and prints its memory in KiB. (The system counts what its parent had before, so that has to be small.)
MEASURED = """
import os, subprocess, sys
run = subprocess.Popen(sys.argv[1:], stdout=subprocess.DEVNULL, stderr=subprocess.DEVNULL)
_, status, used = os.wait4(run.pid, 0)
print(used.ru_maxrss)
sys.exit(status != 0)
"""
# Exceptions that match some and add one.
RULES = """{
  "slurmVersion": 1,
  "validationOutputFilters": {"prefixFilters": [{"prefix": "0.0.0.0/16"}], "bgpsecFilters": []},
  "locallyAddedAssertions": {"prefixAssertions": [{"prefix": "::/0", "asn": 0}], "bgpsecAssertions": []}
}"""


class Tests:
    def __init__(self):
        self.passed = self.failed = 0

    def same(self, name, got, wanted):
        self.passed, self.failed = self.passed + (got == wanted), self.failed + (got != wanted)
        if got != wanted:
            print(f"{name}: {str(got)[:600]}, and {str(wanted)[:600]} is right", flush=True)

    def gives(self, name, words, octets, status, text):
        done = subprocess.run(words, input=octets, capture_output=True, timeout=SECONDS)
        self.same(name, (done.returncode, done.stdout.decode(), done.stderr), (status, text, b""))


def text_of(lines):
    return "".join(f"{line}\n" for line in lines)


# Chains.


def chain(length):
    """A world in which each of so many authorities is the parent of the next, and the URIs of their certificates, the anchor's
    first. The one at place n has the origin AS 64496+n of 10.n.0.0/16, and holds all numbers that it was given."""
    world = World()
    above = world.anchor(1, {"ipv4": ["10.0.0.0/8"]})
    uris = [above.at]
    for at in range(length):
        above.add_roa(b"o.roa", roa(FIRST_AS + at, f"10.{at}.0.0/16"), {"ipv4": [f"10.{at}.0.0/16"]})
        if at + 1 < length:
            name = b"n%d" % (at + 1)
            below = world.authority(at + 2, HOST + name + b"/", name, above.folder + name + b".cer")
            above.certify(name + b".cer", below, {"ipv4": "inherit"} if at % 2 else {"ipv4": ["10.0.0.0/8"]}, trims=at % 3 == 0)
            uris.append(below.at)
        above.publish()
        if at + 1 < length:
            above = below
    return world, uris


def origin(uris, at):
    """Where the origin of the authority at that place stands."""
    return (HOST + (b"ta/" if at == 0 else b"n%d/" % at) + b"o.roa").decode()


def chains(tests, check, ask):
    for length in (1, 2, 31, 32, 33):
        world, uris = chain(length)
        for depth in (1, 31, 32):
            world.depth = depth
            octets = world.bundle()
            most = min(length, depth)
            lines = [f"roa AS{FIRST_AS + at} 10.{at}.0.0/16 16" for at in range(most)]
            # (lines of origins are sorted by their addresses, which ascend here)
            if most < length:
                lines.append(f"refused {uris[most].decode()} depth")
            tests.gives(f"{length} certificates, depth {depth}", [check, "check"], octets, 0, text_of(lines))
            for at in {0, most // 2, most - 1}:
                words = [ask, "judge", "t", origin(uris, at), *(uri.decode() for uri in uris[: at + 1])]
                tests.gives(f"judge by {at + 1} certificates, depth {depth}", words, octets, 0, f"yes\npoints {at + 1}\n")
            if most < length:
                words = [ask, "judge", "t", origin(uris, most), *(uri.decode() for uri in uris[: most + 1])]
                tests.gives(f"judge by {most + 1} certificates, depth {depth}", words, octets, 1, "no\npoints 0\n")


# Lattices.


def lattices(tests, check):
    for width, height in ((2, 3), (8, 8), (3, 30)):
        octets = lattice(width, height).bundle()
        lines = [f"roa AS{FIRST_AS + place} 10.{place}.0.0/16 16" for place in range(width)]
        began = time.monotonic()
        tests.gives(f"a lattice of {width} by {height}", [check, "check"], octets, 0, text_of(lines))
        print(f"{width}^{height} chains: {time.monotonic() - began:.1f} s", flush=True)
        # By each of the first row one origin is held, and the others are not.
        octets = lattice(width, height, lambda place: [f"10.{place}.0.0/16"]).bundle()
        refused = [f"refused {HOST.decode()}{name_at(height - 1, place).decode()}/o.roa object" for place in range(width)]
        tests.gives(f"sets apart, {width} by {height}", [check, "check"], octets, 0, text_of(lines + refused))
    world = lattice(4, 6)
    world.depth = 4
    # The anchor and three rows: no certificate that these issue may follow.
    files = sorted(
        f"refused {HOST.decode()}{name_at(2, parent).decode()}/{name_at(3, child).decode()}.cer depth"
        for parent in range(4)
        for child in range(4)
    )
    tests.gives("a lattice of depth 4", [check, "check"], world.bundle(), 0, text_of(files))
    # Where a key of an upper row is met below, chains with it and without it differ; what is right the second reading knows.
    for again in range(3):
        octets = lattice(2, 3, again=again).bundle()
        right = text_of(rpki_model.answer(octets))
        tests.gives(f"row {again} is certified again below", [check, "check"], octets, 0, right)


def chains_below(width, height):
    """What `cost` says of a lattice: to a certificate of a row as many chains lead as to the one that issued it, and below it
    go on as many as the rows below have."""
    rows = [(sum(width**row for row in range(1, height + 1)), "ta.cer")]
    for row in range(height - 1):
        ways, more = width ** max(row - 1, 0), sum(width**below for below in range(1, height - row))
        folders = [name_at(row - 1, place).decode() for place in range(width)] if row else ["ta"]
        rows += [(ways * more, f"{folder}/{name_at(row, place).decode()}.cer") for folder in folders for place in range(width)]
    rows = sorted(((number, HOST.decode() + file) for number, file in rows), key=lambda row: (-row[0], row[1]))
    return [f"{number} {uri}" for number, uri in rows]


def costs(tests, ask):
    for width, height in ((2, 3), (3, 3), (2, 7)):
        octets = lattice(width, height).bundle()
        lines = chains_below(width, height)
        number = 1 + int(lines[0].split()[0])
        for words in ([], [str(number)]):
            tests.gives(f"cost of {width} by {height}", [ask, "cost", *words], octets, 0, text_of(["exactly", *lines]))
        found = rpki_model.walk(octets).chains_below()
        tests.same(f"cost of {width} by {height}, read again", [f"{count} {uri.decode()}" for count, uri in found], lines)
        # One chain is left out, and it isn't the anchor's.
        done = subprocess.run([ask, "cost", str(number - 1)], input=octets, capture_output=True, timeout=SECONDS)
        said = done.stdout.decode().splitlines()[:2]
        right = ["at least", f"{number - 2} {HOST.decode()}ta.cer"]
        tests.same(f"cost of {width} by {height}, one less", (done.returncode, said, done.stderr), (1, right, b""))
    octets = lattice(2, 32).bundle()
    for limit in (1000, 20_000):
        began = time.monotonic()
        done = subprocess.run([ask, "cost", str(limit)], input=octets, capture_output=True, timeout=SECONDS)
        said = done.stdout.decode().splitlines()[:2]
        right = ["at least", f"{limit - 1} {HOST.decode()}ta.cer"]
        tests.same(f"cost of 2 by 32, limit {limit}", (done.returncode, said, done.stderr), (1, right, b""))
        print(f"{limit} chains counted: {time.monotonic() - began:.1f} s", flush=True)


# URIs.


def siblings():
    """An anchor with 70 authorities below it, each with 10.n.0.0/16 and an origin; the URIs of the origins, and the chains of
    certificates above them, as they are told."""
    world = World()
    anchor = world.anchor(1, {"ipv4": ["10.0.0.0/8"]})
    uris, ways = [], []
    for at in range(MANY):
        name = b"s%d" % at
        authority = world.authority(at + 2, HOST + name + b"/", name)
        # (of neighbours the sets would be joined)
        place = f"10.{2 * at}.0.0/16"
        anchor.certify(name + b".cer", authority, {"ipv4": [place]})
        authority.add_roa(b"o.roa", roa(FIRST_AS + at, place), {"ipv4": "inherit"})
        authority.publish()
        uris.append((authority.folder + b"o.roa").decode())
        ways.append(b" ".join([b"chain t", anchor.at, authority.at]).decode())
    anchor.publish()
    return world, uris, ways


def reached(places):
    return "as \nipv4 " + ", ".join(places) + "\nipv6 \n"


def many(tests, ask, questions):
    world, uris, ways = siblings()
    octets = world.bundle()
    named = lambda uris: "\t".join(["validator", "naming", ",".join(uris), octets.hex()]).encode() + b"\n"
    places = [f"10.{2 * at}.0.0/16" for at in range(MANY)]
    tests.gives(f"{MANY} URIs", [ask, "reach", *uris], octets, 0, reached(places))
    tests.gives(f"{MANY} URIs, the last first", [ask, "reach", *reversed(uris)], octets, 0, reached(places))
    tests.gives(f"{MANY} URIs, by name", [questions], named(uris), 0, " ".join(sorted(ways)) + "\n")
    for at in (0, MANY // 2, MANY - 1):
        others = [f"{HOST.decode()}none{number}" for number in range(MANY)]
        others[at] = uris[at]
        tests.gives(f"{MANY} URIs, of which one is named", [ask, "reach", *others], octets, 0, reached([places[at]]))
        tests.gives(f"{MANY} URIs, by name, of which one is named", [questions], named(others), 0, ways[at] + "\n")
    locators = [f"{HOST.decode()}none{number}" for number in range(MANY - 1)] + [(HOST + b"ta.cer").decode()]
    tests.gives(f"{MANY} URIs, the last a locator's", [ask, "reach", *locators], octets, 0, "locator\n")


# Octets.


def heavy(megabytes):
    """A bundle of so many megabytes: an anchor with an origin, and listed files of a megabyte each."""
    world = World()
    anchor = world.anchor(1, {"ipv4": ["10.0.0.0/8"]})
    anchor.add_roa(b"a.roa", roa(FIRST_AS, "10.0.0.0/16"), {"ipv4": "inherit"})
    block = hashlib.shake_256(b"octets").digest(MEGABYTE)
    for at in range(megabytes):
        anchor.files[b"f%04d.gbr" % at] = at.to_bytes(8, "big") + block
    anchor.publish()
    return world


def bundles(tests, check, sizes):
    for megabytes in sizes:
        octets = heavy(megabytes).bundle()
        began = time.monotonic()
        lines = [f"roa AS{FIRST_AS} 10.0.0.0/16 16"]
        tests.gives(f"{megabytes} MB", [check, "check"], octets, 0, text_of(lines))
        print(f"{len(octets)} octets: {time.monotonic() - began:.1f} s", flush=True)
        # An octet of the last file is another than its manifest says.
        at = octets.rindex((megabytes - 1).to_bytes(8, "big")) + MEGABYTE // 2
        changed = octets[:at] + bytes([octets[at] ^ 1]) + octets[at + 1 :]
        lines = [f"refused {HOST.decode()}ta.cer point"]
        tests.gives(f"{megabytes} MB, an octet changed", [check, "check"], changed, 0, text_of(lines))


# Memory of what writes for routers.


def written_lines(path, count):
    """So many origins in their order, and a customer for each hundred of them."""
    with open(path, "w") as file:
        for at in range(count):
            file.write(f"roa AS{FIRST_AS} {at >> 16}.{at >> 8 & 255}.{at & 255}.0/24 32\n")
        for at in range(count // 100):
            file.write(f"aspa AS{at} AS{FIRST_AS} AS{FIRST_AS + 1}\n")


def most_memory(words, path):
    """The most octets of memory that a program has over a file."""
    with open(path, "rb") as lines:
        done = subprocess.run([sys.executable, "-c", MEASURED, sys.executable, *words], stdin=lines, stdout=subprocess.PIPE)
    return int(done.stdout) * 1024 if done.returncode == 0 else None


def memory(tests, counts):
    """What writes JSON, OpenBGPD's part and CSV, and exceptions: 100 octets at most for an origin more."""
    commands = [["lines_to.py", form, "--moment", "20250101000000Z"] for form in ("json", "openbgpd", "csv")]
    with tempfile.TemporaryDirectory() as room:
        rules, paths = os.path.join(room, "rules"), [os.path.join(room, str(count)) for count in counts]
        with open(rules, "w") as file:
            file.write(RULES)
        for path, count in zip(paths, counts):
            written_lines(path, count)
        for name, *words in (*commands, ["slurm.py", rules]):
            few, many = (most_memory([os.path.join(TOOLS, name), *words], path) for path in paths)
            more = None if None in (few, many) else (many - few) / (counts[1] - counts[0])
            tests.same(f"{name} {words[0]}: {more} octets an origin", more is not None and more <= MOST_OCTETS, True)


def main():
    parser = argparse.ArgumentParser(description=__doc__, formatter_class=argparse.RawDescriptionHelpFormatter)
    parser.add_argument("check")
    parser.add_argument("ask")
    parser.add_argument("questions")
    parser.add_argument("--huge", action="store_const", dest="sizes", const=(17, 64, 200), default=(17,))
    parser.add_argument("--small", action="store_const", dest="sizes", const=(2,))
    given = parser.parse_args()
    check, ask, questions = map(os.path.abspath, (given.check, given.ask, given.questions))
    tests = Tests()
    chains(tests, check, ask)
    lattices(tests, check)
    costs(tests, ask)
    many(tests, ask, questions)
    bundles(tests, check, given.sizes)
    memory(tests, ORIGINS)
    print(f"{tests.passed} passed, {tests.failed} failed")
    sys.exit(1 if tests.failed else 0)


if __name__ == "__main__":
    main()
