"""Bundles whose signed objects are spelled in BER, for tests/lib/rpki_walks.py.

An object is made in DER by tests/lib/rpki_repositories.py, and its values are then spelled in another way (X.690 8.1.3, 8.7),
each by its place: `(1, 0, 2)` is the third value in the first in the second of the object's. What is signed stays as it is, or
is signed anew as it is then spelled.
"""

from rpki_readers import front
from rpki_repositories import HOST, World, aspa, roa, tlv

# Places in a signed object (RFC 5652 5).
SIGNED_DATA, CONTENT, CERT, SIGNER = (1, 0), (1, 0, 2, 1, 0), (1, 0, 3, 0), (1, 0, 4, 0)
IDENTIFIER, ATTRIBUTES, SIGNATURE = (*SIGNER, 1), (*SIGNER, 3), (*SIGNER, 5)
# Places in what is signed of a certificate (RFC 5280 4.1).
EXTENSIONS = (7, 0)


# Ways to spell a value, by the octet that names its tag and its content.


def indefinite(first, content):
    """Of no stated length: two zeros end it."""
    return bytes([first | 32]) + b"\x80" + content + b"\0\0"


def long(count):
    """With so many octets for its length, or with as many as it needs."""

    def spell(first, content):
        most = max(count, (len(content).bit_length() + 7) // 8)
        return bytes([first, 128 + most]) + len(content).to_bytes(most, "big") + content

    return spell


def segments(*sizes, around=tlv, piece=tlv):
    """A string in segments with so many octets, and what is left."""

    def spell(first, content):
        cuts = [0]
        for size in sizes:
            cuts.append(min(cuts[-1] + size, len(content)))
        pieces = [content[a:b] for a, b in zip(cuts, [*cuts[1:], len(content)])]
        return around(first | 32, b"".join(piece(4, octets) for octets in pieces))

    return spell


def nested(depth, around=tlv):
    """A string in one segment, in one segment, and so on."""

    def spell(first, content):
        content = tlv(4, content)
        for _ in range(depth - 1):
            content = around(0x24, content)
        return around(first | 32, content)

    return spell


def no_segments(around):
    return lambda first, content: around(first | 32, b"")


def shorter(way):
    """The same without its last octet."""
    return lambda first, content: way(first, content)[:-1]


def spelled(octets, ways, whole=None, kept=()):
    """The value in front, each of its values spelled by the way for its place, or by `whole`, or in DER; of those at the places
    that are kept, and of those in them, by the way for their place alone."""
    return spelled_value(front(octets), ways, whole, kept, ())


def spelled_value(value, ways, whole, kept, place):
    first = value.source[value.start]
    content = value.inner()
    if value.constructed:
        whole = None if place in kept else whole
        content = b"".join(spelled_value(one, ways, whole, kept, (*place, at)) for at, one in enumerate(value.members))
    way = ways.get(place) or (whole if value.constructed and whole else tlv)
    return way(first, content)


def spelled_object(octets, ways, whole=None):
    """A signed object spelled so; what is signed of its certificate and in its attributes stays as it is."""
    return spelled(octets, ways, whole, ((*CERT, 0), *((*ATTRIBUTES, at) for at in range(9))))


def way_by_chance(rng, value):
    """A way to spell a value, mostly one that is BER."""
    if value.constructed:
        return rng.choice([indefinite] * 6 + [long(rng.randrange(1, 5))] * 3 + [shorter(indefinite), tlv])
    around = rng.choice([tlv, indefinite])
    sizes = [rng.randrange(1, 30) for _ in range(rng.randrange(3))]
    if value.tag in ((0, 4), (2, 0)):
        return rng.choice([segments(*sizes, around=around)] * 5 + [nested(rng.randrange(1, 9), around), long(rng.randrange(1, 4)), no_segments(around)])
    return long(rng.randrange(1, 5))


def spelled_by_chance(rng, octets, rate, places=None):
    """The value in front, some of its values spelled in ways by chance, by their places where these are given."""
    ways, left = {}, [((), front(octets))]
    while left:
        place, value = left.pop()
        if (places is None or place in places) and rng.random() < rate:
            ways[place] = way_by_chance(rng, value)
        left += (((*place, at), one) for at, one in enumerate(value.members))
    return spelled(octets, ways)


# Bundles.

FIRST_CUT = segments(10, around=indefinite)


class Turned(World):
    """A world in which some of what is signed is spelled in other ways: by its number, in the order in which it is signed."""

    def __init__(self, turns):
        super().__init__()
        self.turns, self.signed = turns, 0

    def altered(self, octets):
        self.signed += 1
        turn = self.turns.get(self.signed - 1)
        return turn(octets) if turn else octets


# Of the case single-roa what is signed, in its order.
ROA_CONTENT, ROA_CERT, ROA_ATTRIBUTES, LIST, MANIFEST_CONTENT, MANIFEST_CERT, MANIFEST_ATTRIBUTES = range(1, 8)


def turned(relaxed, ways=None, whole=None, turns=None, manifest=None, certs=None):
    """The case single-roa with its ROA spelled so, and its manifest, and the anchor's certificate and the list."""
    world = Turned(turns or {})
    world.relaxed = relaxed
    ta = world.anchor(1, {"ipv4": ["192.0.2.0/24"]})
    ta.add_roa(b"a.roa", roa(64496, "192.0.2.0/24"), {"ipv4": ["192.0.2.0/24"]})
    if ways or whole:
        ta.files[b"a.roa"] = spelled_object(ta.files[b"a.roa"], ways or {}, whole)
    ta.publish(crl=certs and certs(ta.list_of_revoked()))
    if manifest:
        world.objects[ta.manifest] = manifest(world.objects[ta.manifest])
    if certs:
        world.objects[ta.at] = certs(world.objects[ta.at])
    return world


def ber_roa(relaxed, manifest=None):
    """The case ber-roa: the outer SEQUENCE of the ROA is of no stated length, and its content string has two segments."""
    return turned(relaxed, {(): indefinite, CONTENT: FIRST_CUT}, manifest=manifest)


def ber_manifest(relaxed):
    """The case ber-manifest: the same, and the outer SEQUENCE of the manifest is of no stated length."""
    return ber_roa(relaxed, lambda octets: spelled(octets, {(): indefinite}))


def spellings():
    """Ways to spell the ROA: a name, by their places, and of the others that hold values."""
    strings = {"content": CONTENT, "identifier": IDENTIFIER, "signature": SIGNATURE}
    for name, place in strings.items():
        for size in (0, 1, 2, 9, 19, 20, 24, 25, 31, 32):
            yield f"{name} cut at {size}", {place: segments(size)}, None
        yield f"{name} octet by octet", {place: segments(*[1] * 40, around=indefinite)}, None
        yield f"{name} in long segments", {place: segments(3, 4, piece=long(3))}, None
        for depth in (1, 2, 3, 100, 1_000):
            yield f"{name} nested {depth}", {place: nested(depth)}, None
            yield f"{name} nested {depth} without lengths", {place: nested(depth, indefinite)}, None
        yield f"{name} of no segments", {place: no_segments(tlv)}, None
        yield f"{name} of no segments, without a length", {place: no_segments(indefinite)}, None
        yield f"{name} in segments of another tag", {place: segments(5, piece=lambda _, octets: tlv(12, octets))}, None
        for count in (1, 2, 3, 4, 5):
            yield f"{name} with {count} octets of length", {place: long(count)}, None
    yield "all without lengths", {}, indefinite
    for count in (1, 2, 3, 4):
        yield f"all with {count} octets of length", {}, long(count)
    levels = ((), (1,), SIGNED_DATA, (*SIGNED_DATA, 2), (*SIGNED_DATA, 2, 1), (*SIGNED_DATA, 3), CERT, (*SIGNED_DATA, 4), SIGNER, ATTRIBUTES)
    for place in levels:
        yield f"{place} without a length", {place: indefinite}, None
        yield f"{place} alone with a length", {place: tlv}, indefinite
        yield f"{place} one octet short", {place: shorter(indefinite)}, None
        yield f"{place} with a long length", {place: long(4)}, None
        yield f"{place} of another mode", {place: lambda first, content: bytes([first & ~32]) + b"\x80" + content + b"\0\0"}, None
    yield "ends that aren't there", {(): lambda first, content: bytes([first]) + b"\x80" + content}, None
    yield "an end in two octets' length", {(): lambda first, content: bytes([first]) + b"\x80" + content + b"\0\x81\0"}, None
    yield "an end in a value with a length", {SIGNED_DATA: lambda first, content: tlv(first, content + b"\0\0")}, None
    yield "the certificate's signature in segments", {(*CERT, 2): lambda _, content: tlv(0x23, tlv(3, content))}, None


def again(ways, whole=None):
    """A turn: what is signed is spelled so."""
    return lambda octets: spelled(octets, ways, whole)


def signed_anew():
    """Turns of the case single-roa: what is signed of the ROA and of its certificate is spelled in BER, and signed so."""
    yield "certificate without a length", {ROA_CERT: again({(): indefinite})}
    yield "certificate without lengths", {ROA_CERT: again({}, indefinite)}
    yield "certificate with long lengths", {ROA_CERT: again({}, long(3))}
    yield "a critical extension's flag in BER", {ROA_CERT: lambda octets: octets.replace(b"\1\1\xff", b"\1\1\1")}
    yield "a critical extension's flag left false", {ROA_CERT: lambda octets: octets.replace(b"\1\1\xff", b"\1\1\0")}
    for at in range(7):
        yield f"extension {at} in segments", {ROA_CERT: lambda octets, at=at: in_segments(octets, at)}
        yield f"extension {at} with octets in BER", {ROA_CERT: lambda octets, at=at: with_octets(octets, at)}
    yield "a name in BER", {ROA_CERT: again({(3,): indefinite, (5,): indefinite})}
    yield "a name's string in segments", {ROA_CERT: again({(5, 0, 0, 1): segments(7)})}
    yield "a name in UTF-8", {ROA_CERT: again({(5, 0, 0, 1): lambda _, content: tlv(12, content)})}
    yield "the key in BER", {ROA_CERT: again({(6,): indefinite, (6, 0): indefinite})}
    yield "the key's bits in BER", {ROA_CERT: again({(6, 1): long(2)})}
    yield "a time in segments", {ROA_CERT: again({(4, 0): segments(3)})}
    yield "a serial number in more octets", {ROA_CERT: again({(1,): lambda first, content: tlv(first, b"\0" + content)})}
    for name, way in (("indefinite", indefinite), ("long", long(2))):
        yield f"content {name}", {ROA_CONTENT: again({(): way})}
        yield f"a content's part {name}", {ROA_CONTENT: again({(1,): way})}
        yield f"attribute {name}", {ROA_ATTRIBUTES: again({(0,): way})}
        yield f"an attribute's values {name}", {ROA_ATTRIBUTES: again({(1, 1): way})}
    yield "the digest in segments", {ROA_ATTRIBUTES: again({(1, 1, 0): segments(16, around=indefinite)})}
    yield "the digest nested", {ROA_ATTRIBUTES: again({(1, 1, 0): nested(50)})}
    yield "attributes with a long length", {ROA_ATTRIBUTES: again({(): long(2)})}
    for name, turn in (("content", MANIFEST_CONTENT), ("certificate", MANIFEST_CERT), ("attribute", MANIFEST_ATTRIBUTES)):
        yield f"the manifest's {name} in BER", {turn: again({(0,): long(2)})}
    yield "the manifest's certificate without lengths", {MANIFEST_CERT: again({}, indefinite)}
    yield "the manifest's names in segments", {MANIFEST_CONTENT: again({(4, 0, 0): segments(2)})}


def in_segments(octets, at):
    """The value of that extension in two segments."""
    place = (*EXTENSIONS, at)
    last = len(front(octets).members[7].members[0].members[at].members) - 1
    return spelled(octets, {(*place, last): segments(3, around=indefinite)})


def with_octets(octets, at):
    """The same with its octets spelled in BER."""
    place = (*EXTENSIONS, at)
    last = len(front(octets).members[7].members[0].members[at].members) - 1
    return spelled(octets, {(*place, last): lambda first, content: tlv(first, spelled(content, {(): long(2)}))})


def strict_still():
    """What is strict in each bundle: certificates and lists in files, spelled in BER around what is signed."""
    outer = again({(): indefinite})
    yield "anchor and list in BER", lambda relaxed: turned(relaxed, certs=outer)
    yield "a list in BER", lambda relaxed: listed(relaxed, outer)
    yield "an authority in BER", lambda relaxed: below(relaxed, outer)
    yield "an authority in DER", lambda relaxed: below(relaxed, lambda octets: octets)


def listed(relaxed, way):
    """The case single-roa with its revocation list spelled so."""
    world = World()
    world.relaxed = relaxed
    ta = world.anchor(1, {"ipv4": ["192.0.2.0/24"]})
    ta.add_roa(b"a.roa", roa(64496, "192.0.2.0/24"), {"ipv4": ["192.0.2.0/24"]})
    ta.publish(crl=way(ta.list_of_revoked()))
    return world


def below(relaxed, way):
    """An authority below the anchor, whose certificate is spelled so, with a ROA in BER."""
    world = World()
    world.relaxed = relaxed
    ta = world.anchor(1, {"ipv4": ["10.0.0.0/8"]})
    ca = world.authority(2, HOST + b"ca/", b"ca")
    ta.certify(b"ca.cer", ca, {"ipv4": ["10.0.0.0/8"]})
    ta.files[b"ca.cer"] = way(ta.files[b"ca.cer"])
    ta.publish()
    ca.add_roa(b"x.roa", roa(64496, "10.1.0.0/16"), {"ipv4": ["10.1.0.0/16"]})
    ca.files[b"x.roa"] = spelled_object(ca.files[b"x.roa"], {CONTENT: segments(4)}, indefinite)
    ca.publish()
    return world


def customers(relaxed):
    """The case two-aspas with both objects in BER."""
    world = World()
    world.relaxed = relaxed
    ta = world.anchor(1, {"as": [(0, 2**32 - 1)]})
    ta.add_aspa(b"a.asa", aspa(15562, 2914, 8283), {"as": [15562]})
    ta.add_aspa(b"b.asa", aspa(15562, 8283, 51088), {"as": [15562]})
    for name in list(ta.files):
        ta.files[name] = spelled_object(ta.files[name], {CONTENT: segments(5)}, indefinite)
    ta.publish()
    return world


def worlds():
    """All of them, relaxed and not, each with a name."""
    for relaxed in (True, False, None):
        word = {True: "relaxed", False: "strict", None: "version 0"}[relaxed]
        # of those that aren't relaxed some are enough
        step = {True: 1, False: 5, None: 20}[relaxed]
        for name, ways, whole in list(spellings())[::step]:
            yield f"{word}, {name}", turned(relaxed, ways, whole)
        for name, turns in list(signed_anew())[::step]:
            yield f"{word}, {name}", turned(relaxed, turns=turns)
        for name, made in strict_still():
            yield f"{word}, {name}", made(relaxed)
        yield f"{word}, two ASPAs", customers(relaxed)
        yield f"{word}, all in DER", turned(relaxed)
