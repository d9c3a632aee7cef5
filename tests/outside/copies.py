#!/usr/bin/env python3
"""Asks tools/verdicts.py about caches in which copies of one URI differ, in each layout.

    copies.py [PROGRAM]

Beside an honest repository of bench/repository.py stands somebody who holds a certificate below the same trust anchor and has a
server of its own: it may put there whatever it likes, under anybody's URIs, and may name these in certificates. What honest
authorities publish has to be in the folder octet by octet, and with PROGRAM, a built `rpki_check`, all their lines have to be
printed. Which copy counts comes from what was made. Exits with 1 at the first answer that differs.
"""

import hashlib
import ipaddress
import json
import os
import random
import shutil
import subprocess
import sys
import tempfile

from odd_caches import Room, repository, same

sys.dont_write_bytecode = True

import points  # noqa: E402
import relaxed  # noqa: E402
import signed  # noqa: E402

HOST = repository.HOST
HONEST_SERVER, OTHER_SERVER = f"https://rrdp.{HOST}/notify.xml", "https://aaa.other.example/notify.xml"
AUTHORITIES, ORIGINS, CUSTOMERS = 3, 2, 1
REPOSITORY = f"rsync://{HOST}/repository/"
A0 = REPOSITORY + "a0/"
VICTIM = A0 + "a0.mft"


class Placed(repository.Authority):
    """An authority whose certificate may name a server, too."""

    notification, manifest = HONEST_SERVER, None

    def access(self):
        places = [("5", self.folder), ("10", self.manifest or self.folder + self.name + ".mft")]
        places += [("13", self.notification)] if self.notification else []
        rows = (repository.sequence(repository.oid("1.3.6.1.5.5.7.48." + kind), repository.uri(place)) for kind, place in places)
        return repository.extension("1.3.6.1.5.5.7.1.11", repository.sequence(*rows))


def digest(text):
    return hashlib.sha256(text.encode()).hexdigest()


def parts(uri):
    return uri.partition("://")[2].partition("/")[::2]


# Where a layout has an object that came by a server, or by rsync where that is None. FORT's folders have names of no meaning.
NAMES = {HONEST_SERVER: "bb", OTHER_SERVER: "aa"}


def in_plain(server, host, path):
    return f"rsync/{host}/{path}"


def in_rpki_client(server, host, path):
    return f".rrdp/{digest(server)}/{host}/{path}" if server else f".rsync/{host}/{path}"


def in_fort(server, host, path):
    return f"rrdp/{NAMES[server]}/{host}/{path}" if server else f"rsync/{host}/{path}"


def in_routinator(server, host, path):
    front = f"store/rrdp/{server.split('/')[2]}/{digest(server)}" if server else "store"
    return f"{front}/rsync/{host}/{path}"


LAYOUTS = {"plain": in_plain, "rpki-client": in_rpki_client, "fort": in_fort, "routinator": in_routinator}


class World:
    """An honest repository, and beside it what others put into the cache."""

    def __init__(self):
        repository.Authority = Placed
        self.made = repository.Repository(AUTHORITIES, ORIGINS, CUSTOMERS, 2)
        self.honest = dict(self.made.objects)
        self.lines = self.made.lines()
        self.anchor, self.pool = self.made.anchor, self.made.pool
        self.own = dict(self.anchor.files)

    def other(self, uri, server=OTHER_SERVER, key=None, file="evil.cer"):
        """An authority below the anchor that names a manifest of this URI, with an origin of its own in `o0.roa`."""
        folder, _, name = uri.rpartition("/")
        one = Placed(name.removesuffix(".mft"), key or repository.Key([]), repository.Held(inherits=True), self.anchor)
        one.folder, one.notification, one.manifest = folder + "/", server, uri
        one.at = self.anchor.folder + file
        self.anchor.files[file] = one.own_cert()
        one.add_origin("o0.roa", self.pool[0], 64496, ipaddress.ip_network("10.255.0.0/24"))
        return one

    def all(self):
        """All honest objects, with the anchor's point as it is now; the next world's begins as the first."""
        objects = {**self.honest, **self.anchor.publish(self.pool[0])}
        self.anchor.files = dict(self.own)
        return objects


def of(one, key):
    """What an authority publishes, its manifest at the URI that it names."""
    objects = one.publish(key)
    objects[one.manifest] = objects.pop(one.folder + one.name + ".mft")
    return objects


class Cache:
    """A cache of one layout in a room."""

    def __init__(self, room, layout):
        self.room, self.layout, self.folder = room, layout, room.path("hostile")
        shutil.rmtree(self.folder, ignore_errors=True)

    def path(self, server, uri):
        return os.path.join(self.folder, LAYOUTS[self.layout](server, *parts(uri)))

    def put(self, server, objects):
        """Lays objects; where there is one already in that very file, it stays."""
        for uri, octets in objects.items():
            path = self.path(server, uri)
            if not os.path.exists(path):
                repository.write(path, octets)

    def run(self, what, honest, lines, program, *words):
        """A run over the cache: its summary and its report. All that is honest has to be there."""
        summary = self.room.told(self.folder, "--layout", self.layout, "--report", self.room.path("report"), *words)
        for uri, octets in honest.items():
            path = os.path.join(self.room.out, uri.replace("://", "/", 1))
            if not os.path.exists(path) or open(path, "rb").read() != octets:
                sys.exit(f"{self.layout}: {what}: {uri} isn't the honest one")
        if program:
            same(f"{self.layout}: {what}: lines", attested(program, self.room.out), lines)
        else:
            print(f"{self.layout}: {what}: ok", flush=True)
        with open(self.room.path("report")) as file:
            return summary, json.load(file)


def attested(program, out):
    """The lines of origins and customers."""
    bundle = subprocess.run([program, "bundle", out], capture_output=True)
    done = subprocess.run([program, "check"], input=bundle.stdout, capture_output=True)
    if bundle.returncode or done.returncode:
        sys.exit(f"{bundle.stderr} {done.stderr}")
    return "".join(line for line in done.stdout.decode().splitlines(True) if not line.startswith("refused "))


def other_case(uri):
    return uri.replace(HOST, HOST.upper())


# What is put beside honest objects: of each name the objects, and whether that is a plain copy of a signed one.


def cut(world):
    """A cut copy, such as a cache on a full disk has."""
    return {VICTIM: world.honest[VICTIM][:400]}


def flipped(world):
    """The honest manifest with one octet changed, which breaks its signature."""
    octets = bytearray(world.honest[VICTIM])
    octets[-1] ^= 1
    return {VICTIM: bytes(octets)}


def others_manifest(world):
    """The honest manifest of another authority."""
    return {VICTIM: world.honest[REPOSITORY + "a1/a1.mft"]}


def other_files(world):
    """A ROA of an other authority, a cut revocation list, a cut certificate, and a cut trust anchor."""
    return {
        A0 + "o0.roa": world.honest[REPOSITORY + "a1/o0.roa"],
        A0 + "a0.crl": world.honest[A0 + "a0.crl"][:-1],
        REPOSITORY + "ta/a0.cer": world.honest[REPOSITORY + "ta/a0.cer"][:-1],
        world.anchor.at: world.honest[world.anchor.at][:-1],
    }


def all_cut(world):
    return {uri: octets[:-1] for uri, octets in world.honest.items()}


PUT = (cut, flipped, others_manifest, other_files, all_cut)


def beside(room, world, program):
    """Copies by others, under another spelling of the host in the same store, and in another server's folder."""
    for layout in LAYOUTS:
        for put in PUT:
            for where, server, spelled in (("another case", HONEST_SERVER, other_case), ("another server", OTHER_SERVER, str)):
                if layout == "plain" and where == "another server":
                    continue
                cache = Cache(room, layout)
                cache.put(HONEST_SERVER, world.honest)
                cache.put(server, {spelled(uri): octets for uri, octets in put(world).items()})
                summary, report = cache.run(f"{put.__name__}, {where}", world.honest, world.lines, program)
                same(f"{layout}: {put.__name__}, {where}: told", (summary["differing"], report["contested"]), (len(put(world)), []))


def put_others(cache, objects):
    """Lays what others have: in the folder of their server, or where there are none, under another spelling of the host."""
    if cache.layout == "plain":
        objects = {other_case(uri): octets for uri, octets in objects.items()}
    cache.put(OTHER_SERVER, objects)


def claims(uri):
    """An authority that names that URI as its manifest's."""

    def make(world):
        one = world.other(uri)
        return of(one, world.pool[0]), one

    return make


def lists(world):
    """An authority with a manifest of its own in an honest folder, which lists a file of that."""
    one = world.other(A0 + "zzz.mft")
    return of(one, world.pool[0]), one


# Of each claim the URIs that are contested; of a manifest that loses the files count no more.
CLAIMED = (
    ("an honest manifest's URI", claims(VICTIM), {VICTIM}),
    ("the same in other case", claims(other_case(VICTIM)), {VICTIM}),
    ("an honest object's URI", claims(A0 + "c0.asa"), {A0 + "c0.asa"}),
    ("a file of an honest folder", lists, {A0 + "o0.roa"}),
    ("an honest folder's URI", claims(REPOSITORY + "a0"), {REPOSITORY + "a0"}),
    ("a folder below an honest object's URI", claims(A0 + "o0.roa/x.mft"), {A0 + "o0.roa"}),
)


def claimed(room, world, program):
    """Others' certificates name URIs that are honest ones, too, with copies of their own: the one whose store is nearer stands."""
    for layout in LAYOUTS:
        for what, make, uris in CLAIMED:
            objects, one = make(world)
            honest = world.all()
            cache = Cache(room, layout)
            cache.put(HONEST_SERVER, honest)
            put_others(cache, objects)
            _, report = cache.run(f"others claim {what}", honest, world.lines, program)
            found = report["contested"]
            same(f"{layout}: others claim {what}: contested", {row["uri"] for row in found}, uris)
            rows = {(row["why"], row["stands"]["authority"] == one.at, *(lost["authority"] for lost in row["loses"])) for row in found}
            same(f"{layout}: others claim {what}: who loses", rows, {("host", False, one.at)})


def absent(room, world, program):
    """Where points, or files of them, aren't in the cache at all, the others' copies are chosen as ever."""
    for gone in ("a1/", "a1/a1.mft", "a1/a1.crl", "a2/o0.roa"):
        rest = {uri: octets for uri, octets in world.honest.items() if not uri.startswith(REPOSITORY + gone)}
        numbers = ("AS100002 ",) if gone[:2] == "a1" else ("AS100004 ",)
        lines = "".join(line for line in world.lines.splitlines(True) if not line.split(" ", 1)[1].startswith(numbers))
        for layout in LAYOUTS:
            cache = Cache(room, layout)
            cache.put(HONEST_SERVER, rest)
            put_others(cache, all_cut(world))
            # (whose manifest is gone, whichever copies of its other files are taken, has no lines)
            stays = {uri: octets for uri, octets in rest.items() if not uri.startswith(REPOSITORY + gone[:3])}
            cache.run(f"without {gone}", stays, lines, program)


class Renewed:
    """The first authority's point as it was, and as it is after its next manifest, which lists another ROA under an old name."""

    def __init__(self, world):
        world.all()
        one = next(one for one in world.made.below if one.name == "a0")
        self.before = {uri: octets for uri, octets in world.honest.items() if uri.startswith(A0)}
        files = dict(one.files)
        one.number = 2
        one.add_origin("o0.roa", world.pool[0], repository.FIRST_AS, ipaddress.ip_network("10.0.0.0/24"))
        self.after = one.publish(world.pool[0])
        one.files, one.number, self.key = files, 1, one.key
        self.lines = world.lines.replace("roa AS100000 10.0.0.0/28 30", "roa AS100000 10.0.0.0/24 24")
        self.honest = {**world.honest, **self.after}


def replayed(room, world, program):
    """Others put an authority's own manifests, of another time, under its URIs: an older one with its files, also where their
    certificate for the honest key names it; and a newer one whose files they keep back."""
    new = Renewed(world)
    same("what is renewed has other lines", new.lines != world.lines, True)
    for layout in LAYOUTS:
        cache = Cache(room, layout)
        cache.put(HONEST_SERVER, new.honest)
        put_others(cache, new.before)
        cache.run("an older manifest", new.honest, new.lines, program)
        world.other(VICTIM, key=new.key)
        honest = {**world.all(), **new.after}
        cache = Cache(room, layout)
        cache.put(HONEST_SERVER, honest)
        put_others(cache, new.before)
        cache.run("an older manifest, and a certificate that names it", honest, new.lines, program)
        cache = Cache(room, layout)
        cache.put(HONEST_SERVER, world.honest)
        put_others(cache, {VICTIM: new.after[VICTIM]})
        cache.run("a newer manifest without its files", world.honest, world.lines, program)


class Rivals:
    """An honest authority that comes by its server, and others who came by rsync from the host of the URI that both name."""

    def __init__(self, world):
        self.one = world.other(VICTIM, server=None)
        self.others = of(self.one, world.pool[0])
        self.honest = world.all()
        self.rest = {uri: octets for uri, octets in self.honest.items() if not uri.startswith(A0)}
        self.lines = world.lines
        # (lines of origins are sorted by address, and come before those of customers)
        rows = [row for row in world.lines.splitlines(True) if "AS100000 " not in row] + ["roa AS64496 10.255.0.0/24 24\n"]
        self.others_lines = "".join(sorted(rows, key=lambda row: (row[0] == "a", address_of(row))))

    def cache(self, room, layout, of_server, by_rsync):
        cache = Cache(room, layout)
        cache.put(HONEST_SERVER, of_server)
        cache.put(None, by_rsync)
        return cache


def before(room, world, program):
    """The authority stands whose copy the run before took, and where there is none, whose store has the URI's host."""
    rivals = Rivals(world)
    for layout in ("rpki-client", "fort", "routinator"):
        cache = rivals.cache(room, layout, rivals.honest, rivals.others)
        _, report = cache.run("no run before", rivals.rest, rivals.others_lines, program)
        same(f"{layout}: no run before: why", {row["why"] for row in report["contested"]}, {"host"})
        cache = rivals.cache(room, layout, rivals.honest, {})
        cache.run("honest before", rivals.honest, rivals.lines, program)
        again(room, rivals, layout, program, rivals.honest, rivals.lines, REPOSITORY + "ta/a0.cer")
        cache = rivals.cache(room, layout, rivals.rest, rivals.others)
        cache.run("others before", rivals.rest, rivals.others_lines, program)
        again(room, rivals, layout, program, rivals.rest, rivals.others_lines, rivals.one.at)


def again(room, rivals, layout, program, stays, lines, who):
    """Runs after one that took one of the rivals' copies: by the folder that it wrote, and by the bundle that was kept of it."""
    first, kept = room.path("first"), room.path("kept")
    for folder in (first, kept):
        shutil.rmtree(folder, ignore_errors=True)
    os.rename(room.out, first)
    ways = [first]
    if program:
        os.mkdir(kept)
        with open(os.path.join(kept, "bundle"), "wb") as file:
            subprocess.run([program, "bundle", first], stdout=file, check=True)
        shutil.copy(os.path.join(first, "verdicts"), kept)
        ways.append(kept)
    cache = rivals.cache(room, layout, rivals.honest, rivals.others)
    for known in ways:
        what = f"{os.path.basename(known)} has {who}"
        _, report = cache.run(what, stays, lines, program, "--known", known)
        found = {(row["why"], row["stands"]["authority"]) for row in report["contested"]}
        same(f"{layout}: {what}: why, and who stands", found, {("known", who)})


def address_of(line):
    kind, number, *more = line.split()
    return ipaddress.ip_network(more[0]) if kind == "roa" else number


# Reads a file's octets, and counts that.
COUNTED = """
import caches
read = caches.read_file
def counted(*given):
    with open({path!r}, "ab") as file:
        file.write(b".")
    return read(*given)
caches.read_file = counted
"""
CROWD = 60


def crowd(room, world):
    """Many authorities name one URI, and each has a copy there under another spelling of the host: each copy is read some times, and
    not once for each of them."""
    name = "crowd.example"
    spellings = sorted({"".join(each.upper() if number >> at & 1 else each for at, each in enumerate(name))
                        for number in range(4 * CROWD)})[:CROWD]
    key, objects = world.pool[0], {}
    for number, host in enumerate(spellings):
        one = world.other(f"rsync://{host}/x/x.mft", file=f"evil{number:02}.cer")
        objects |= of(one, key)
    for layout in LAYOUTS:
        cache, path = Cache(room, layout), room.path("count")
        honest = {**world.honest, **world.anchor.publish(key)}
        cache.put(HONEST_SERVER, honest)
        cache.put(HONEST_SERVER if layout == "plain" else OTHER_SERVER, objects)
        repository.write(path, b"")
        summary = room.told(cache.folder, "--layout", layout, code=COUNTED.format(path=path))
        files = len(honest) + len(objects)
        same(f"{layout}: {CROWD} authorities of one URI", len(summary["contested"]), 1)
        same(f"{layout}: {CROWD} authorities of one URI: who loses", len(summary["contested"][0]["loses"]), CROWD - 1)
        same(f"{layout}: {CROWD} authorities of one URI: reads", os.path.getsize(path) <= 4 * files, True)
    world.all()


def by_chance(world, count):
    """Octets by chance in the place of certificates, manifests and ROAs are Malformed, or something is read of them; nothing else."""
    chance, anchor = random.Random(1), world.anchor
    roa, bits = world.honest[A0 + "o0.roa"], b"\0" + next(one for one in world.made.below if one.name == "a0").key.octets
    kinds = (world.honest[anchor.at], points.authority), (world.honest[VICTIM], read_manifest(bits)), (roa, count_rows)
    for octets, read in kinds:
        outcomes = set()
        for _ in range(count):
            changed = bytearray(octets)
            for _ in range(chance.randrange(1, 4)):
                changed[chance.randrange(len(octets))] = chance.choice((0, 1, 0x30, 0x80, 0x84, 0xFF, chance.randrange(256)))
            changed = changed[: chance.choice((len(octets), chance.randrange(len(octets))))]
            try:
                read(bytes(changed))
                outcomes.add("read")
            except signed.Malformed:
                outcomes.add("malformed")
        same(f"{count:,} times octets by chance", outcomes, {"read", "malformed"})


def read_manifest(bits):
    def read(octets):
        found = relaxed.read(octets)
        if isinstance(found, signed.Object):
            if found.content:
                points.listed(found.content)
            points.digest_in(found.attributes)
            points.is_manifest_by(found, bits)

    return read


def count_rows(octets):
    found = relaxed.read(octets)
    if isinstance(found, signed.Object) and found.content:
        points.count_of(found.kind, found.content, 0)
        points.listed(found.content)


def main():
    program = (sys.argv[1:] or [None])[0]
    world = World()
    with tempfile.TemporaryDirectory() as folder:
        room = Room(folder, world.made)
        by_chance(world, 20_000)
        crowd(room, world)
        absent(room, world, program)
        before(room, world, program)
        replayed(room, world, program)
        claimed(room, world, program)
        beside(room, world, program)


if __name__ == "__main__":
    main()
