#!/usr/bin/env python3
"""Asks tools/validate.py whether everybody else's lines come out, whatever one publisher or a careless operator does.

    publishers.py PROGRAM ASKER [--many] [--only WORD]

PROGRAM and ASKER are crates/rpki_check/out/rpki_check and crates/rpki_ask/out/rpki_ask, or other builds of them.

Three trust anchors have two members each with ROAs and ASPAs, and below the first anchor there is somebody who holds one
certificate and a few addresses, and publishes what it likes:

  copies   files that stand under other people's URIs, in another spelling of their host or in the folder of another server, cut,
           old or signed by itself, without or with a certificate that names the URI: in each layout of a cache
  guards   locators, trust anchors or lines that are missing, and a clock that is wrong: FILE is as it was, unless that was wanted
  sizes    objects that are large, list much, or are many on a host that others share
  faults   a disk that is full, a Python without `cryptography`, memory that is short, a checker that fails

Each time the others' origins and customers are compared with what was made, which is stated here, or FILE with what it was; and
the exit status. With --many each way is tried in each layout, and objects are as many and as large as anybody was found to make
them; --only takes the parts with the word in their name.

Prints a line for each answer that isn't right, and `N passed, M failed`; exits with 1 where one failed.
"""

import argparse
import base64
import functools
import hashlib
import ipaddress
import itertools
import json
import os
import shutil
import subprocess
import sys
import tempfile

HERE = os.path.dirname(os.path.abspath(__file__))
TOP = os.path.join(HERE, os.pardir, os.pardir)
TOOLS, EXAMPLES = os.path.join(TOP, "tools"), os.path.join(TOP, "examples")
sys.dont_write_bytecode = True
for folder in ("bench", "tests/lib"):
    sys.path.insert(0, os.path.join(TOP, folder))

import repository  # noqa: E402
from outcomes import SLOWER  # noqa: E402
from repository import Authority, Held, extension, integer, oid, sequence, uri  # noqa: E402

SECONDS = 300 * SLOWER
WELL, FAULT, PARTED, CHECK, GUARD, MEMORY, FULL = 0, 1, 3, 5, 7, 8, 9
ROA = "1.2.840.113549.1.9.16.1.24"
SHARED, HOST = "rpki.example", "rsync://rpki.example/"
# The same host to whoever looks it up, in a spelling that sorts first.
SPELLED = "RPKI.EXAMPLE"
NOTIFY = "https://rrdp.example/notification.xml"
# Since when the attacker's certificate is valid, beside others', where it is newer than these, or older.
NEWER, OLDER = "20240601000000Z", "20230101000000Z"
OLD = json.dumps({"roas": [], "metadata": {"note": "the file that stood there"}}) + "\n"
# Of the first anchor's numbers the attacker holds these.
ITS_NETWORKS = [ipaddress.ip_network("10.255.0.0/16"), ipaddress.ip_network("2001:db8:ff00::/40")]
ITS_AS = 65_000
# Where Python is told of something that this machine has, and of what it lacks: nothing is written any more by the program that
# LACKING names once it has made so many files, or a module isn't there.
CUSTOM = '''
import builtins, errno, io, os, sys
lacking, _, count = os.environ.get("LACKING", "").partition(" ")
if lacking == "cryptography":
    sys.modules["cryptography"] = None
elif lacking and sys.argv[0].endswith(lacking):
    left = [int(count)]
    def make_sure(path):
        left[0] -= 1
        if left[0] < 0:
            raise OSError(errno.ENOSPC, os.strerror(errno.ENOSPC), path)
    def opened(path, mode="r", *more, before=builtins.open, **how):
        if set(mode) & set("wxa+") and not isinstance(path, int):
            make_sure(path)
        return before(path, mode, *more, **how)
    def made(path, flags, *more, before=os.open, **how):
        if flags & os.O_CREAT:
            make_sure(path)
        return before(path, flags, *more, **how)
    builtins.open = io.open = opened
    os.open = made
'''


class Tests:
    def __init__(self):
        self.passed = self.failed = 0

    def same(self, name, got, wanted, more=""):
        self.passed, self.failed = self.passed + (got == wanted), self.failed + (got != wanted)
        if got != wanted:
            print(f"{name}: {str(got)[:600]}, and {str(wanted)[:600]} is right\n{more}", flush=True)


@functools.cache
def key(name):
    """The RSA key of that name, made once."""
    return repository.Key([])


class Publisher(Authority):
    """An authority: where it publishes, by which name, and the notification file of its RRDP server, where it has one. `cert` is the
    name of its certificate's file, and `first` since when that is valid."""

    def __init__(self, name, held, parent=None, notify=None, folder=None, cert=None, first=repository.NOT_BEFORE):
        super().__init__(name, key(cert or name), held, parent)
        self.notify, self.cert, self.first = notify, f"{cert or name}.cer", first
        self.folder = folder or f"{HOST}repository/{name}/"
        self.at = (parent.folder if parent else f"{HOST}ta/") + self.cert

    def access(self):
        """Where it publishes (RFC 6487 4.8.8.1, RFC 8182 3.2)."""
        places = [("5", self.folder), ("10", self.folder + self.name + ".mft")]
        places += [("13", self.notify)] if self.notify else []
        rows = (sequence(oid("1.3.6.1.5.5.7.48." + kind), uri(place)) for kind, place in places)
        return extension("1.3.6.1.5.5.7.1.11", sequence(*rows))

    def own_cert(self):
        before = repository.NOT_BEFORE
        repository.NOT_BEFORE = self.first
        try:
            return super().own_cert()
        finally:
            repository.NOT_BEFORE = before

    def certified(self):
        """Puts its certificate among its parent's files."""
        self.parent.files[self.cert] = self.own_cert()
        return self


class World:
    """What everybody publishes, and what comes of the honest ones. `objects` has the octets by store and URI: a store is None for
    rsync, or the URI of a notification file."""

    def __init__(self, notify=None, members=2, origins=3):
        self.objects, self.origins, self.customers, self.anchors, self.others = {}, set(), set(), [], []
        for number, name in enumerate(("one", "two", "three")):
            held = [ipaddress.ip_network(f"{10 + number}.0.0.0/8")] + ([ipaddress.ip_network("2001:db8::/32")] if number == 0 else [])
            anchor = Publisher(name, Held(held, [(64_496 + 100 * number, 64_595 + 100 * number), (ITS_AS + number, ITS_AS + number)]))
            self.anchors.append(anchor)
            for count in range(members):
                self.add_member(anchor, number, count, notify, origins)

    def add_member(self, anchor, number, count, notify, origins):
        asn = 64_496 + 100 * number + count
        network = ipaddress.ip_network(f"{10 + number}.{count}.0.0/16")
        member = Publisher(f"{anchor.name}{count}", Held([network], [(asn, asn)]), anchor, notify)
        for at in range(origins):
            prefix = ipaddress.ip_network(f"{10 + number}.{count}.{at}.0/24")
            member.add_origin(f"o{at}.roa", key("ee"), asn, prefix, 24 + at % 2)
            self.origins.add((str(prefix), 24 + at % 2, asn))
        member.add_customer("c.asa", key("ee"), asn, [asn + 10, asn + 20])
        self.customers.add((asn, (asn + 10, asn + 20)))
        self.others.append(member.certified())

    def attacker(self, **how):
        """Somebody below the first anchor, who signs by its own key; its certificate is newer than others', if nothing else is said."""
        held = Held(ITS_NETWORKS, [(ITS_AS, ITS_AS)])
        return Publisher(**{"name": "leaf", "cert": "leaf", "first": NEWER, **how}, held=held, parent=self.anchors[0])

    def add(self, publisher, notify=None):
        """Lays what it publishes in its store."""
        for place, octets in publisher.publish(key("ee")).items():
            self.objects[notify or publisher.notify, place] = octets

    def publish(self):
        """Adds what the honest ones publish, when all their certificates are there."""
        for publisher in (*self.others, *self.anchors):
            self.add(publisher)
        for anchor in self.anchors:
            self.objects[None, anchor.at] = anchor.own_cert()
        return self


def plain(store, host, path):
    return f"rsync/{host}/{path}"


def digest_of(text):
    return hashlib.sha256(text.encode()).hexdigest()


def of_rpki_client(store, host, path):
    return f".rrdp/{digest_of(store)}/{host}/{path}" if store else f".rsync/{host}/{path}"


def of_fort(store, host, path):
    return f"rrdp/{digest_of(store)}/{host}/{path}" if store else f"rsync/{host}/{path}"


def of_routinator(store, host, path):
    server = store and f"rrdp/{store.split('/')[2]}/{digest_of(store)}/"
    return f"store/{server or ''}rsync/{host}/{path}"


def of_fort_by_numbers(store, host, path):
    """As FORT names folders by numbers, which don't tell whose they are."""
    return f"rrdp/{'bb' if store == NOTIFY else 'aa'}/{host}/{path}" if store else f"rsync/{host}/{path}"


LAYOUTS = {"plain": plain, "rpki-client": of_rpki_client, "fort": of_fort, "routinator": of_routinator}
# Of these each server has folders of its own.
APART = {**LAYOUTS, "fort by numbers": of_fort_by_numbers}
del APART["plain"]


class Room:
    """A folder with a cache, its locators and FILE, which stands there before each run."""

    def __init__(self, folder, tests, programs):
        self.folder, self.tests, self.programs = folder, tests, programs
        self.cache, self.tals, self.out = (os.path.join(folder, name) for name in ("cache", "tals", "out/routes.json"))
        os.mkdir(os.path.join(folder, "out"))
        os.mkdir(os.path.join(folder, "custom"))
        self.write("custom/sitecustomize.py", CUSTOM)

    def path(self, *names):
        return os.path.join(self.folder, *names)

    def write(self, name, text):
        repository.write(self.path(name), text if isinstance(text, bytes) else text.encode())
        return self.path(name)

    def lay(self, world, layout="plain"):
        """Lays the cache and the locators."""
        shutil.rmtree(self.cache, ignore_errors=True)
        shutil.rmtree(self.tals, ignore_errors=True)
        for (store, place), octets in world.objects.items():
            self.lay_one(store, place, octets, layout)
        for anchor in world.anchors:
            text = base64.encodebytes(anchor.key.encoded).decode()
            self.write(f"tals/{anchor.name}.tal", f"{anchor.at}\n\n{text}")
        return world

    def lay_one(self, store, place, octets, layout="plain"):
        host, _, path = place.removeprefix("rsync://").partition("/")
        place = (LAYOUTS | APART)[layout]
        self.write(os.path.join("cache", place(store, host, path)), octets)

    def stands(self, world=None):
        """FILE as it was before: nothing of interest, or what the world means."""
        rows = {"metadata": {}, "roas": [], "aspas": []}
        for prefix, greatest, asn in sorted(world.origins) if world else ():
            rows["roas"].append({"asn": asn, "prefix": prefix, "maxLength": greatest, "ta": "x"})
        text = json.dumps(rows) + "\n" if world else OLD
        self.write("out/routes.json", text)
        return text

    def run(self, *words, lacking="", cache=None, tals=None, moment=repository.MOMENT, programs=None):
        """A run of validate.py."""
        checker, asker = programs or self.programs
        words = [cache or self.cache, "--tals", tals or self.tals, "--moment", moment, "--out", self.out, "--jobs", "1", *words]
        words += ["--checker", checker, "--asker", asker]
        how = {"env": {**os.environ, "PYTHONPATH": self.path("custom"), "LACKING": lacking}, "timeout": SECONDS}
        how |= {"capture_output": True, "text": True, "errors": "replace"}
        done = subprocess.run([sys.executable, os.path.join(TOOLS, "validate.py"), *words], **how)
        self.tests.same("no traceback", "Traceback" in done.stderr, False, done.stderr)
        return done

    def told(self):
        """The origins and customers of FILE."""
        with open(self.out) as file:
            made = json.load(file)
        origins = {(row["prefix"], row["maxLength"], row["asn"]) for row in made["roas"]}
        return origins, {(row["customer_asid"], tuple(row["providers"])) for row in made.get("aspas", ())}

    def gives(self, name, done, status, world, said=()):
        """That the run ended so, and FILE has everybody else's lines and of the attacker's none but its own."""
        self.tests.same(f"{name}: the status", done.returncode, status, done.stderr)
        origins, customers = self.told()
        more = {row for row in origins - world.origins if not is_its(row)}
        self.tests.same(f"{name}: origins", (len(world.origins - origins), more), (0, set()), done.stderr)
        same_customers = {row for row in customers if row[0] != ITS_AS}
        self.tests.same(f"{name}: customers", same_customers, world.customers, done.stderr)
        for text in said:
            self.tests.same(f"{name}: says {text}", text in done.stderr, True, done.stderr)

    def stays(self, name, done, status, text, said=()):
        """That the run ended so, and FILE is as it was."""
        with open(self.out) as file:
            self.tests.same(f"{name}: the status, and FILE", (done.returncode, file.read() == text), (status, True), done.stderr)
        others = [one for one in os.listdir(self.path("out")) if one != "routes.json" and not one.startswith("routes.json.status.")]
        self.tests.same(f"{name}: nothing but the status is left", others, [])
        for word in said:
            self.tests.same(f"{name}: says {word}", word in done.stderr, True, done.stderr)


def is_its(row):
    """Whether an origin is of the attacker's own addresses."""
    network = ipaddress.ip_network(row[0])
    return any(network.version == one.version and network.subnet_of(one) for one in ITS_NETWORKS)


# Copies.


def spelled(place):
    """The URI with its host in other letters."""
    return place.replace(SHARED, SPELLED)


def claimed(world, victim, is_spelled=True, **how):
    """A certificate that names the victim's manifest as its own, with all that it publishes there; `is_spelled` in other
    letters."""
    folder = spelled(victim.folder) if is_spelled else victim.folder
    leaf = world.attacker(name=victim.name, folder=folder, **how).certified()
    leaf.add_origin("its.roa", key("ee"), ITS_AS, ITS_NETWORKS[0])
    return leaf


def letters(room, is_many):
    """The host in other letters: a copy that is cut, and one of a certificate that names it; of an anchor's manifest, or of one
    below."""
    both = ("anchors", "others")
    ways = itertools.product(LAYOUTS, both) if is_many else zip(("plain", "routinator"), both)
    for layout, place in ways:
        world = World()
        it = getattr(world, place)[0]
        world.publish()
        manifest = f"{it.folder}{it.name}.mft"
        world.objects[None, spelled(manifest)] = world.objects[None, manifest][:-100]
        room.lay(world, layout)
        room.stands()
        room.gives(f"{layout}, a cut copy of {it.name}'s manifest", room.run("--layout", layout), WELL, world)
        world = World()
        it = getattr(world, place)[0]
        leaf = claimed(world, it)
        world.publish().add(leaf)
        room.lay(world, layout)
        room.stands()
        done = room.run("--layout", layout)
        room.gives(f"{layout}, a certificate that names {it.name}'s manifest", done, PARTED, world, [it.at, leaf.at])


def files(room):
    """Files under other people's URIs that a manifest of its own lists."""
    world = World()
    it = world.others[0]
    leaf = world.attacker(name="leaf", folder=spelled(it.folder)).certified()
    leaf.add_origin("o0.roa", key("ee"), ITS_AS, ITS_NETWORKS[0])
    world.publish().add(leaf)
    room.lay(world)
    room.stands()
    done = room.run()
    room.tests.same("files that its manifest lists: the status", done.returncode in (WELL, PARTED), True, done.stderr)
    room.gives("files that its manifest lists", done, done.returncode, world)


def servers(room, is_many):
    """Files under other people's URIs in the folder of its own RRDP server: cut, old, and signed by itself. The folder's name
    stands in front of others, or behind them."""
    names = [f"https://a{number}.example/n.xml" for number in range(40)]
    first, last = min(names, key=digest_of), max(names, key=digest_of)
    ways = list(itertools.product((NOTIFY, None), (first, last)))
    for at, layout in enumerate(APART):
        for notify, server in ways if is_many else (ways[at],):
            what = f"{layout}, {'RRDP' if notify else 'rsync'}, {'before' if server == first else 'behind'}"
            of_others(room, layout, notify, server, what, is_many)
            of_itself(room, layout, notify, server, what)


def of_others(room, layout, notify, server, what, is_many):
    """Its server has other people's manifest, cut, or an older one that lists less and is signed well."""
    world = World(notify)
    leaf = world.attacker(notify=server).certified()
    world.publish().add(leaf)
    it = world.others[0]
    manifest = f"{it.folder}{it.name}.mft"
    older = World(notify, origins=2).publish().objects[notify, manifest]
    ways = {"older": older, "cut": world.objects[notify, manifest][:-100]}
    for name, octets in list(ways.items())[: 2 if is_many else 1]:
        world.objects[server, manifest] = octets
        room.lay(world, layout)
        room.stands()
        room.gives(f"{what}: a manifest that is {name}", room.run("--layout", layout.split()[0]), WELL, world)


def of_itself(room, layout, notify, server, what):
    """Its certificate names other people's manifest, and its server has one of its own there."""
    world = World(notify)
    it = world.others[0]
    leaf = claimed(world, it, notify=server, is_spelled=False)
    world.publish().add(leaf)
    room.lay(world, layout)
    room.stands()
    room.gives(f"{what}: a manifest of its own", room.run("--layout", layout.split()[0]), PARTED, world, [it.at, leaf.at])


def known(room):
    """Who had the URI in the run before keeps it, though another's certificate is older; both are told, in the evidence and in FILE,
    too."""
    kept = room.path("kept")
    world = room.lay(World().publish())
    room.stands()
    room.gives("before", room.run("--keep", kept), WELL, world)
    world = World()
    it = world.others[0]
    leaf = claimed(world, it, first=OLDER)
    world.publish().add(leaf)
    room.lay(world)
    room.gives("known", room.run("--keep", kept, "--known", kept), PARTED, world, [it.at, leaf.at])
    for name, path in (("the summary", os.path.join(kept, "summary.json")), ("FILE", room.out)):
        with open(path) as file:
            told = json.load(file)
        rows = told.get("contested") or told["metadata"]["contested"]
        room.tests.same(f"{name} names both", [one in json.dumps(rows) for one in (it.at, leaf.at)], [True, True])


def example(room):
    """The example cache with a cut copy of the registry's manifest under other letters of its host."""
    cache = room.path("example")
    shutil.copytree(os.path.join(EXAMPLES, "cache"), cache)
    path = "store/rsync/{}/repository/registry/registry.mft"
    with open(os.path.join(cache, path.format(SHARED)), "rb") as file:
        octets = file.read()
    repository.write(os.path.join(cache, path.format(SPELLED)), octets[:-100])
    room.stands()
    done = room.run("--name", "example", cache=cache, tals=os.path.join(cache, "tals"))
    with open(os.path.join(EXAMPLES, "cache.json")) as file:
        wanted = json.load(file)
    with open(room.out) as file:
        made = json.load(file)
    rows = [[one[name] for name in ("roas", "aspas")] for one in (made, wanted)]
    room.tests.same("the example", (done.returncode, rows[0]), (WELL, rows[1]), done.stderr)


def copies(room, is_many):
    example(room)
    letters(room, is_many)
    files(room)
    servers(room, is_many)
    known(room)


# Guards.


def guards(room, is_many):
    """What is missing keeps FILE as it was."""
    world = room.lay(World().publish())
    text = room.stands(world)
    empty = room.path("empty")
    os.mkdir(empty)
    room.stays("no locators", room.run(tals=empty), GUARD, text)
    for years, moment in (("past", "20150101000000Z"), ("future", "20350101000000Z")):
        room.stays(f"a clock in the {years}", room.run(moment=moment), GUARD, text, ["newest file"])
    silent = room.write("silent", f'#!/bin/sh\n[ "$1" = check ] || exec {room.programs[0]} "$@"\ncat > /dev/null\n')
    os.chmod(silent, 0o755)
    room.stays("a checker that prints nothing", room.run(programs=(silent, room.programs[1])), GUARD, text)
    anchor_missing(room, world, text)
    room.lay(world)
    text = room.stands(World(origins=5))
    done = room.run("--max-drop", "39")
    room.stays("two origins of five gone", done, GUARD, text, ["origins"])
    for words in (["--max-drop", "40"], ["--max-drop", "0"], ["--force"]):
        room.stands(World(origins=5))
        room.gives(f"two origins of five gone, {words}", room.run(*words), WELL, world)
    text = room.stands(world)
    room.stays("fewer than are wanted", room.run("--min-origins", "19"), GUARD, text)
    room.gives("as many as are wanted", room.run("--min-origins", "18"), WELL, world)


def anchor_missing(room, world, text):
    """One anchor's certificate isn't in the cache."""
    os.remove(os.path.join(room.cache, "rsync", SHARED, "ta", "three.cer"))
    room.stays("an anchor is missing", room.run(), GUARD, text, ["three"])
    room.stays("it may be missing, but not its lines", room.run("--allow-missing-anchor", "three"), GUARD, text)
    less = World()
    less.origins = {row for row in world.origins if not row[0].startswith("12.")}
    less.customers = {row for row in world.customers if row[0] < 64_696}
    done = room.run("--allow-missing-anchor", "three", "--max-drop", "0")
    room.gives("it may be missing", done, WELL, less)
    room.stands(world)
    room.gives("by force", room.run("--force"), WELL, less)


# Sizes.


def roa_of(count, asn=ITS_AS):
    """The content of a ROA with so many prefixes of the attacker's addresses (RFC 9582 4)."""
    start = int(ITS_NETWORKS[1].network_address) >> 64
    rows = b"".join(b"\x30\x0b\x03\x09\x00" + (start + at).to_bytes(8, "big") for at in range(count))
    return sequence(integer(asn), sequence(sequence(repository.FAMILIES[6], sequence(rows))))


def with_roas(counts):
    """A world in which the attacker publishes ROAs with so many prefixes each, and a small one."""
    world = World()
    leaf = world.attacker().certified()
    for at, count in enumerate(counts):
        held = Held([ITS_NETWORKS[1]])
        leaf.files[f"many{at}.roa"] = leaf.sign_object(ROA, roa_of(count), f"many{at}.roa", key("ee"), held)
    leaf.add_origin("its.roa", key("ee"), ITS_AS, ITS_NETWORKS[0])
    world.publish().add(leaf)
    return world


def large(room, is_many):
    """ROAs that are large or list many prefixes: what is past a limit is left out, told, and takes nobody else's lines along."""
    world = room.lay(with_roas([100_000]))
    room.stands()
    done = room.run()
    room.gives("100,000 prefixes", done, WELL, world)
    room.tests.same("100,000 prefixes: they come", len(room.told()[0] - world.origins) >= 100_000, True, done.stderr)
    world = room.lay(with_roas([100_001]))
    room.stands()
    room.gives("100,001 prefixes", room.run(), WELL, world, ["max-origins-per-object", "many0.roa"])
    room.gives("three at most", room.run("--max-origins-per-object", "3"), WELL, world, ["max-origins-per-object"])
    counts = [2_300_000] * 4 if is_many else [320_000]
    world = room.lay(with_roas(counts))
    room.stands()
    done = room.run()
    room.gives("over 4,000,000 octets", done, WELL, world, ["max-file-size", "many0.roa"])


def shared(room, is_many):
    """One authority's files on a host that others share, each small enough, and together more than the share of a store."""
    count, size, share = (80, 3_900_000, 100_000_000) if is_many else (60, 50_000, 1_000_000)
    world = World()
    leaf = world.attacker().certified()
    for at in range(count):
        leaf.files[f"f{at:02}.gbr"] = at.to_bytes(2, "big") + bytes(size)
    world.publish().add(leaf)
    room.lay(world)
    room.stands()
    room.gives("a store's share", room.run("--max-store-size", str(share)), WELL, world, ["max-store-size", leaf.at])
    with open(f"{room.out}.status.json") as file:
        told = {row["authority"] for row in json.load(file)["left_out"] if "max-store-size" in row["why"]}
    room.tests.same("a store's share: by whom", told, {leaf.at})
    room.stands()
    room.gives("within the share", room.run("--max-store-size", str(2 * count * size)), WELL, world)


def sizes(room, is_many):
    large(room, is_many)
    shared(room, is_many)


# Faults.


def faults(room, is_many):
    """What is missing on the machine: FILE is as it was, with a status and a message of its own."""
    world = room.lay(World().publish())
    text = room.stands(world)
    for count in (0, 3, 12):
        done = room.run(lacking=f"verdicts.py {count}")
        room.stays(f"a full disk after {count} files", done, FULL, text, ["disk is full"])
    room.stays("no cryptography", room.run(lacking="cryptography"), FAULT, text, ["python3-cryptography"])
    done = room.run("--memory-limit", "4")
    room.stays("little memory", done, MEMORY, text, ["memory"])
    failing = room.write("failing", f'#!/bin/sh\n[ "$1" = check ] || exec {room.programs[0]} "$@"\necho none; exit 1\n')
    os.chmod(failing, 0o755)
    kept = room.path("kept")
    room.gives("before it fails", room.run("--keep", kept), WELL, world)
    with open(room.out) as file:
        text = file.read()
    before = sorted(os.listdir(kept))
    done = room.run("--keep", kept, programs=(failing, room.programs[1]))
    room.stays("a checker that fails", done, CHECK, text)
    found = [name for name in os.listdir(room.folder) if name.startswith("kept") and name != "kept"]
    room.tests.same("what failed is kept beside", (len(found), sorted(os.listdir(kept))), (1, before), done.stderr)
    parts = set(os.listdir(room.path(found[0]))) if found else set()
    room.tests.same("with its bundle and summary", {"bundle", "summary.json"} <= parts, True, parts)


def main():
    parser = argparse.ArgumentParser(description=__doc__, formatter_class=argparse.RawDescriptionHelpFormatter)
    parser.add_argument("program")
    parser.add_argument("asker")
    parser.add_argument("--many", action="store_true", help="all ways in all layouts, and large objects")
    parser.add_argument("--only", default="", metavar="WORD", help="only the part of that name")
    given = parser.parse_args()
    tests, programs = Tests(), [os.path.abspath(path) for path in (given.program, given.asker)]
    for part in (copies, guards, faults, sizes):
        if given.only in part.__name__:
            with tempfile.TemporaryDirectory() as folder:
                part(Room(folder, tests, programs), given.many)
    print(f"{tests.passed} passed, {tests.failed} failed")
    return 1 if tests.failed else 0


if __name__ == "__main__":
    sys.exit(main())
