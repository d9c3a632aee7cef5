"""Bundles that hostile publishers may have made, by chance, for tests/outside/rpki_random.py.

A bundle's repositories are made by chance: authorities that certify each other in rings, with the keys, folders and
manifests of others, claims that fit or don't under each policy, lists that revoke, times at the edge, files that are
missing, changed or listed twice, and locators of many spellings. Values are changed before they are signed (members taken
out, put in and exchanged, other tags, contents and lengths), objects after that, and bundles as a whole.

Others are of version 1, mostly relaxed, and their objects are mostly spelled in BER, now and then what is signed, too
(`relaxed_bundle`).

Others have long chains (`long_bundle`): up to 33 certificates, several locators, loops, second parents, each policy, and nothing in
them is changed, so that much of them stands.
"""

import copy
import hashlib
import random

from rpki_readers import Refused, front
from rpki_relaxed import spelled_by_chance
from rpki_repositories import ASPA, FIRST, HOST, LAST, MOMENT, ROA, Authority, World
from rpki_repositories import aspa, basic, claims_of, locator_text, policies, roa, usage

BEFORE, AFTER = b"20241231235959Z", b"20250101000001Z"
PREFIXES = {
    "ipv4": ["10.0.0.0/8", "10.0.0.0/9", "10.128.0.0/9", "10.1.0.0/16", "11.0.0.0/8", "0.0.0.0/0", ("10.0.0.1", "10.200.0.0"), "10.1.2.3/32"],
    "ipv6": ["2001:db8::/32", "::/0", "2001:db8:8000::/33", ("2001:db8::1", "2001:db8::ffff"), "::ffff:10.0.0.0/104"],
}
NUMBERS = [64496, (64496, 64511), (0, 2**32 - 1), 15562, (1, 15562), 2**32 - 1, 0]
ROUTES = ["10.0.0.0/8", "10.1.0.0/16-24", "10.128.0.0/9", "11.0.0.0/8-8", "10.1.2.3/32", "2001:db8::/32-48", "2001:db8:8000::/33", "::/0-128", "::ffff:10.0.0.0/104", "0.0.0.0/0-1"]


# Values, changed.


class Node:
    """A value that can be changed: its identifier octets, and its content octets or its members."""

    def __init__(self, value):
        first = value.source[value.start :]
        size = 1
        if first[0] & 31 == 31:
            while first[size] & 128:
                size += 1
            size += 1
        self.identifier, self.parts, self.content = first[:size], None, None
        if value.constructed:
            self.parts = [Node(part) for part in value.members]
        else:
            self.content = value.inner()
            self.unwrap()

    def unwrap(self):
        """An OCTET STRING may have one value in it, as extensions have."""
        if self.identifier != b"\4" or not self.content:
            return
        try:
            inner = front(self.content)
        except Refused:
            return
        if inner.end == len(self.content) and len(self.content) > 2:
            self.parts, self.content = [Node(inner)], None

    def octets(self, rng=None):
        content = self.content if self.parts is None else b"".join(part.octets(rng) for part in self.parts)
        size = len(content)
        length = size.to_bytes((size.bit_length() + 7) // 8, "big")
        shortest = bytes([size] if size < 128 else [128 + len(length), *length])
        if rng and rng.random() < 0.002:
            shortest = rng.choice([b"\x80", b"\x84\xff\xff\xff\xff", b"\x81" + bytes([size & 255]), b"\x82\0" + bytes([size & 255]), b"\x85\0\0\0\0\0", bytes([size + 1 & 127])])
        return self.identifier + shortest + content

    def all(self):
        yield self
        for part in self.parts or []:
            yield from part.all()


CONTENTS = [b"", b"\0", b"\1", b"\xff", b"\0\0", b"\0\1", b"\x7f", b"\x80", b"\0\x80", b"\xff\xff\xff\xff", b"\0\xff\xff\xff\xff", b"\1" + b"\0" * 20, b"\0" * 20, b"\0\2", b"20250101000000Z"]


def change_content(rng, octets):
    octets = bytearray(octets)
    at = rng.randrange(len(octets)) if octets else 0
    what = rng.randrange(6)
    if what == 0 or not octets:
        return rng.choice(CONTENTS)
    if what == 1:
        octets[at] ^= 1 << rng.randrange(8)
    elif what == 2:
        octets[-1] = octets[-1] + rng.choice([1, 255]) & 255
    elif what == 3:
        del octets[at]
    elif what == 4:
        octets.insert(at, rng.choice([0, 1, 32, 47, 128, 255]))
    else:
        octets = octets[: at or 1]
    return bytes(octets)


def change(rng, octets):
    """A value with something in it changed."""
    try:
        top = Node(front(octets))
    except Refused:
        return change_content(rng, octets)
    nodes = list(top.all())
    for _ in range(rng.choice([1, 1, 1, 2, 3])):
        change_one(rng, nodes)
    return top.octets(rng if rng.random() < 0.2 else None)


def change_one(rng, nodes):
    node = rng.choice(nodes)
    what = rng.randrange(8)
    if node.parts is None and what < 4:
        node.content = change_content(rng, node.content)
    elif what == 4:
        node.identifier = bytes([node.identifier[0] ^ rng.choice([1, 2, 4, 8, 32, 128, 0x12, 0x1F])]) + node.identifier[1:]
    elif node.parts:
        at, other = rng.randrange(len(node.parts)), rng.randrange(len(node.parts))
        if what in (0, 5):
            del node.parts[at]
        elif what in (1, 6):
            node.parts.insert(other, copy.deepcopy(rng.choice([node.parts[at], node.parts[at], rng.choice(nodes), Node(front(b"\5\0"))])))
        else:
            node.parts[at], node.parts[other] = node.parts[other], node.parts[at]


# Repositories.


class Chance(World):
    """A world by chance; values are changed before they are signed, now and then."""

    def __init__(self, rng):
        super().__init__(rng.choice([1, 2, 3, 4, 32, 32]), rng.choice([MOMENT] * 17 + [FIRST, LAST, BEFORE]))
        self.rng = rng
        self.rate = rng.choice([0, 0, 0, 0.01, 0.03, 0.1])

    def altered(self, octets):
        return change(self.rng, octets) if self.rng.random() < self.rate else octets


class RelaxedChance(Chance):
    """The same of version 1, with objects in BER."""

    def __init__(self, rng):
        super().__init__(rng)
        self.relaxed = rng.choice([True] * 6 + [False, None])
        self.rate /= 4
        self.spells = rng.choice([0.02, 0.05, 0.2])

    def altered(self, octets):
        octets = super().altered(octets)
        if self.rng.random() < 0.95:
            return octets
        try:
            return spelled_by_chance(self.rng, octets, 0.1)
        except Refused:
            return octets

    def spelled(self, octets):
        """Spells what stands around what is signed, and seldom what is signed."""
        try:
            return spelled_by_chance(self.rng, octets, self.spells, AROUND if self.rng.random() < 0.97 else None)
        except Refused:
            return octets


# The places in a signed object around what is signed, and of its strings.
AROUND = [(), (1,), (1, 0), (1, 0, 1), (1, 0, 1, 0), (1, 0, 2), (1, 0, 2, 1), (1, 0, 2, 1, 0), (1, 0, 3), (1, 0, 3, 0), (1, 0, 3, 0, 1), (1, 0, 3, 0, 2)]
AROUND += [(1, 0, 4), (1, 0, 4, 0), *((1, 0, 4, 0, at) for at in range(6))]


def some(rng, rows, most=3):
    return rng.sample(rows, rng.randrange(min(most, len(rows)) + 1))


def claims_by_chance(rng, wide):
    """Wide claims have all that others may have."""
    if wide:
        return {"ipv4": ["0.0.0.0/0"], "ipv6": ["::/0"], "as": [(0, 2**32 - 1)]} if rng.random() < 0.9 else {"ipv4": ["10.0.0.0/8"], "as": [(1, 70000)]}
    found = {}
    for kind in ("ipv4", "ipv6", "as"):
        what = rng.random()
        if what < 0.55:
            found[kind] = "inherit"
        elif what < 0.9:
            found[kind] = some(rng, PREFIXES.get(kind, NUMBERS)) or PREFIXES.get(kind, NUMBERS)[:1]
    return found or {"ipv4": "inherit"}


def validity(rng):
    return rng.choice([(FIRST, LAST)] * 40 + [(MOMENT, MOMENT), (FIRST, MOMENT), (MOMENT, LAST), (FIRST, BEFORE), (AFTER, LAST), (b"19500101000000Z", b"20500101000000Z")])


def certificate(rng, world):
    """What is asked of a certificate that is issued."""
    how = {"validity": validity(rng), "trims": rng.random() < 0.4}
    if rng.random() < 0.05:
        how["signer"] = rng.randrange(1, 7)
    if rng.random() < 0.3:
        how["serial"] = rng.randrange(1, 5)
    return how


def name_of(rng, base, extension):
    extension = bytes(rng.choice([octet, octet, octet ^ 32]) for octet in extension)
    return base + b"." + extension


def fill(rng, authority):
    """ROAs, ASPAs, and files of other kinds."""
    world = authority.world
    for at in range(rng.randrange(5)):
        what = rng.random()
        kind = b"roa" if what < 0.5 else b"asa" if what < 0.8 else rng.choice([b"cer", b"gbr", b"mft", b"roa", b"asa"])
        file = name_of(rng, rng.choice([b"f%d" % at, b"x", authority.name]), kind)
        how = certificate(rng, world)
        if rng.random() < 0.2:
            how["signing_time"] = rng.choice([FIRST, LAST, AFTER, b"20260101000001Z"])
        if rng.random() < 0.1:
            how["key"] = rng.randrange(1, 7)
        claims = claims_by_chance(rng, False)
        if kind == b"asa":
            providers = sorted(rng.sample([0, 1, 2914, 8283, 51088, 15562], rng.randrange(1, 4)))
            authority.files[file] = authority.signed(ASPA, aspa(rng.choice([15562, 64496, 0, 2**32 - 1]), *providers), file, claims, **how)
        else:
            content = roa(rng.choice([64496, 64497, 0, 2**32 - 1]), *some(rng, ROUTES))
            authority.files[file] = authority.signed(rng.choice([ROA] * 9 + [ASPA]), content, file, claims, **how)
    if rng.random() < 0.1:
        authority.files[rng.choice([b"r.cer", b"q.roa", b"z.asa"])] = rng.choice([b"", b"\0", b"\x30\0", b"\x30\x80\0\0", hashlib.sha256(b"x").digest()])


def router(rng, authority):
    """A certificate that isn't an authority's."""
    extensions = [*authority.below(9, rng.random() < 0.3)[rng.randrange(2) :], *claims_of({"as": [1]})]
    if rng.random() < 0.3:
        extensions.insert(0, basic(False))
    authority.files[b"router.cer"] = authority.world.cert(9, authority.key, extensions)


def publish(rng, authority):
    if rng.random() < 0.1:
        router(rng, authority)
    authority.revoked = some(rng, [1, 2, 3, 4, 2**160 - 1], 2)
    edges = [(FIRST, LAST)] * 40 + [(MOMENT, MOMENT), (FIRST, MOMENT), (FIRST, BEFORE), (AFTER, LAST)]
    crl = authority.list_of_revoked(rng.choice(edges), *([rng.randrange(1, 7)] if rng.random() < 0.02 else []))
    how = {"validity": validity(rng)}
    if rng.random() < 0.1:
        how["claims"] = claims_by_chance(rng, False)
        how["trims"] = rng.random() < 0.4
    if rng.random() < 0.05:
        how["serial"] = rng.randrange(1, 5)
    if rng.random() < 0.03:
        how["listed"] = [(rng.choice([b"f0.roa", b"none.txt", authority.name + b".crl"]), hashlib.sha256(crl).digest())]
    authority.publish(rng.choice(edges), crl, **how)
    world = authority.world
    if rng.random() < 0.04:
        # what is published is changed after the manifest
        uri = rng.choice(sorted(world.objects))
        world.objects[uri] = rng.choice([b"\0", change_content(rng, world.objects[uri]), world.objects[rng.choice(sorted(world.objects))]])
    if rng.random() < 0.02:
        del world.objects[rng.choice(sorted(world.objects))]


def locators(rng, world, at, key):
    uris = rng.choice([[at]] * 30 + [[b"https://r.example/ta.cer", at], [at, b"https://r.example/ta.cer"], [at.replace(b"rsync", b"RSYNC")], [HOST + b"none.cer", at], []])
    text = locator_text(uris, key if rng.random() < 0.98 else 2, rng.choice([b"\n", b"\n", b"\r\n"]))
    if rng.random() < 0.06:
        text = rng.choice([b"# x\n" + text, b"#\r\n" + text, b"\n" + text, text[:-1], text.replace(b"=", b"= "), text + b"=", change_content(rng, text), change_content(rng, text)])
    world.locators[rng.choice([b"t", b"t", b"u", b"a.b"])] = text
    if rng.random() < 0.05:
        world.objects[b"https://r.example/ta.cer"] = rng.choice([b"\0", *(octets for uri, octets in sorted(world.objects.items()) if uri == at)])


def world_by_chance(rng, kind=Chance):
    world = kind(rng)
    count = rng.choice([1, 1, 2, 2, 3, 4, 5])
    tops = rng.choice([1, 1, 1, 2])
    authorities = []
    for at in range(count):
        name = b"n%d" % at
        folder = HOST + (name if rng.random() < 0.93 else b"n0") + b"/" + rng.choice([b"", b"", b"d/"])
        key = at + 1 if rng.random() < 0.93 else rng.randrange(1, count + 1)
        if at < tops:
            # (the anchor's own certificate is seldom changed, else little would stand)
            rate, world.rate = world.rate, world.rate / 5
            made = world.anchor(key, claims_by_chance(rng, True), None, HOST + name + b".cer", folder, validity=validity(rng))
            made.name, made.manifest, made.crl = b"ta", folder + b"ta.mft", folder + b"ta.crl"
            world.rate = rate
            locators(rng, world, made.at, key)
        else:
            made = Authority(world, key, HOST + name + b".cer", folder, name)
        authorities.append(made)
    for at, authority in enumerate(authorities):
        for other in authorities:
            if rng.random() < (0.8 if other is (authorities + authorities[:1])[at + 1] else 0.2):
                name = name_of(rng, rng.choice([other.name, other.name, b"same"]), b"cer")
                authority.certify(name, other, claims_by_chance(rng, False), **certificate(rng, world))
        fill(rng, authority)
        publish(rng, authority)
    return world


def relaxed_bundle(seed):
    """The bundle of a seed, of version 1 mostly, with objects in BER."""
    return bundle_by_chance(seed, RelaxedChance)


def bundle_by_chance(seed, kind=Chance):
    """The bundle of a seed."""
    rng = random.Random(seed)
    world = world_by_chance(rng, kind)
    if rng.random() < 0.05 and world.verdicts:
        del world.verdicts[rng.randrange(len(world.verdicts))]
    octets = world.bundle()
    if rng.random() < 0.04:
        octets = change_content(rng, octets)
    return octets


# Chains of many certificates.


def chain_by_chance(rng):
    """A world with long chains: authorities below each other, to a depth of 33, with few others beside them; some certify one above
    or below them once more, so that there are loops and second parents. Each certificate has a policy of its own, and claims that
    fit, inherit, or go further than what is held. One to three locators stand above, with one or several URIs."""
    world = World(rng.choice([1, 2, 8, 16, 31, 32, 32, 32]))
    world.rate = rng.choice([0, 0, 0.01, 0.05])
    length = rng.choice([2, 3, 5, 8, 13, 21, 31, 32, 33])
    tops = []
    for at in range(rng.choice([1, 1, 2, 3])):
        name = b"t%d" % at
        top = world.anchor(900 + at, wide_claims(rng), name, HOST + name + b".cer", HOST + name + b"/", trims=rng.random() < 0.5)
        top.name, top.manifest, top.crl = b"ta", top.folder + b"ta.mft", top.folder + b"ta.crl"
        world.objects[top.at] = world.cert(top.key, top.key, anchor_extensions(rng, world, top), validity=validity(rng))
        more = rng.choice([[], [], [b"https://r.example/%d.cer" % at], [HOST + b"none.cer"]])
        # (https URIs are looked for first, then the others in their order)
        world.locators[name] = locator_text(rng.sample([top.at, *more], 1 + len(more)), top.key)
        tops.append(top)
    line = []
    for at in range(length - 1):
        name = b"n%d" % at
        line.append(Authority(world, at + 1, HOST + name + b".cer", HOST + name + b"/", name))
    for top in tops:
        certify_below(rng, top, line[0])
    for above, below in zip(line, line[1:]):
        certify_below(rng, above, below)
    for _ in range(rng.randrange(3)):
        # a loop, another parent, or one that is passed over
        certify_below(rng, rng.choice(line), rng.choice([*line, *tops]))
    for authority in [*tops, *line]:
        if rng.random() < 0.4:
            fill_sparsely(rng, authority)
        authority.revoked = some(rng, [1, 2, 3, 2**160 - 1], 1) if rng.random() < 0.1 else []
        how = {"claims": claims_below(rng, world), "trims": rng.random() < 0.5} if rng.random() < 0.1 else {}
        authority.publish(crl=authority.list_of_revoked(), **how)
    if rng.random() < 0.2:
        del world.objects[rng.choice(sorted(world.objects))]
    return world


def anchor_extensions(rng, world, top):
    """The extensions of a trust anchor's certificate, with claims that are not inherited."""
    trims = rng.random() < 0.5
    own = [basic(), world.subject_key(top.key), usage(True), top.access(), policies(trims)]
    return [*own, *claims_of(wide_claims(rng), trims)]


def wide_claims(rng):
    return {"ipv4": [rng.choice(["0.0.0.0/0", "10.0.0.0/8"])], "ipv6": ["::/0"], "as": [(0, 2**32 - 1)]}


FITTING = {"ipv4": ["10.0.0.0/8"], "ipv6": ["2001:db8::/32"], "as": [(1, 70000)]}


def claims_below(rng, world):
    """Claims of a certificate below others: such as fit what is held everywhere, but for some, as often as the world has it."""
    found = {}
    for kind in ("ipv4", "ipv6", "as"):
        if rng.random() >= world.rate:
            found[kind] = "inherit" if rng.random() < 0.8 else FITTING[kind]
        elif rng.random() < 0.7:
            found[kind] = some(rng, PREFIXES.get(kind, NUMBERS)) or PREFIXES.get(kind, NUMBERS)[:1]
    return found or {"ipv4": "inherit"}


def certify_below(rng, above, below):
    name = below.name if below.name != b"ta" else b"ta%d" % below.key
    how = {"serial": rng.randrange(1, 5)} if rng.random() < 0.05 else {}
    above.certify(name + b".cer", below, claims_below(rng, above.world), trims=rng.random() < 0.5, **how)


def fill_sparsely(rng, authority):
    """A ROA or an ASPA, whose certificate has a policy of its own."""
    how = {"trims": rng.random() < 0.5}
    if rng.random() < 0.7:
        prefix = rng.choice(ROUTES)
        kind = "ipv6" if ":" in prefix else "ipv4"
        claims = {kind: "inherit" if rng.random() < 0.7 else [prefix.partition("-")[0]]}
        authority.add_roa(b"o.roa", roa(rng.choice([64496, 64497]), prefix), claims, **how)
    else:
        authority.add_aspa(b"o.asa", aspa(15562, *sorted(rng.sample([0, 1, 2914, 8283], 2))), {"as": rng.choice(["inherit", [15562]])}, **how)


def long_bundle(seed):
    """The bundle of a seed, with long chains."""
    return chain_by_chance(random.Random(f"long {seed}")).bundle()
