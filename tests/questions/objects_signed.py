"""Questions about signed objects, for tests/questions/objects.py.

A value is read here by X.690 8.1 to 8.14, in BER or in DER (10), then compared with the grammar of RFC 5652 3 and 5, RFC 6488 2
and RFC 6019, and its certificate with that of RFC 6487 4, all in one mode; the contents of extensions are DER in both, and read
by rpki_readers.py. Objects are made of named parts, of which one is another, and spelled in DER or in some way of BER.
"""

import hashlib
import random

import rpki_readers as der
import rpki_relaxed
import rpki_repositories as world
from objects_contents import answer_of
from rpki_repositories import NULL, RSA, SHA256, bits, integer, oid, seq, tlv

rng = random.Random(6488)
Refused, need = der.Refused, der.need


# Values in either mode.


class Node(der.Value):
    """A value that may be of indefinite length: its content ends before the octets that close it."""

    __slots__ = ("content_end",)

    def inner(self):
        return self.source[self.content_start : self.content_end]


def header(source, at, limit, ber):
    """The value that begins there; its end is None where its length is indefinite."""
    start, first = at, at < limit and source[at]
    need(at < limit)
    number, at = first & 31, at + 1
    if number == 31:
        number, count = 0, 0
        while True:
            need(at < limit and count < 3 and not (count == 0 and source[at] == 0x80))
            octet, at, count = source[at], at + 1, count + 1
            number = number << 7 | octet & 127
            if octet < 128:
                break
        need(number >= 31)
    need((first >> 6, number) != (0, 0) and at < limit)
    size, at, constructed = source[at], at + 1, bool(first & 32)
    if size == 0x80:
        need(ber and constructed)
        return Node(source, start, (first >> 6, number), constructed, at, None)
    if size > 0x80:
        count = size - 0x80
        need(count <= 4 and at + count <= limit)
        size = int.from_bytes(source[at : at + count], "big")
        at += count
        need(ber or size >= max(128, 1 << 8 * (count - 1)))
    need(at + size <= limit)
    node = Node(source, start, (first >> 6, number), constructed, at, at + size)
    node.content_end = at + size
    return node


def front(source, ber):
    """The value in front; what is behind it isn't looked at."""
    top = header(source, 0, len(source), ber)
    inside, at = [(top, len(source))] if top.constructed else [], top.content_start
    while inside:
        last, limit = inside[-1]
        if last.end is None and source[at : at + 2] == b"\0\0" and at + 2 <= limit:
            last.content_end, at = at, at + 2
            last.end = at
            inside.pop()
        elif at == last.end:
            inside.pop()
        else:
            within = limit if last.end is None else last.end
            node = header(source, at, within, ber)
            last.members.append(node)
            at = node.content_start if node.constructed else node.end
            if node.constructed:
                inside.append((node, within))
    return top


def string(value, ber, tag=(0, 4)):
    """The octets of an OCTET STRING; in BER it may stand in segments, nested at will (8.7.3)."""
    octets, rest = [], [(value, tag)]
    while rest:
        part, wanted = rest.pop()
        need(part.tag == wanted and (ber or not part.constructed))
        if part.constructed:
            rest += ((member, (0, 4)) for member in reversed(part.members))
        else:
            octets.append(part.inner())
    return b"".join(octets)


def truth(value, ber):
    octets = der.content(value, 1)
    need(len(octets) == 1 and (ber or octets in (b"\0", b"\xff")))
    return octets != b"\0"


def bit_string(value, ber):
    octets = der.content(value, 3)
    need(octets and octets[0] <= 7 and (len(octets) > 1 or octets[0] == 0))
    need(ber or len(octets) == 1 or octets[-1] & (1 << octets[0]) - 1 == 0)
    return octets[1:], octets[0]


# The certificate and the object.


def key_of(value, ber):
    """The octets in DER of a key, which has zeros for unused bits there, and NULL behind the algorithm of RSA."""
    kind, said = der.counted(value, 2)
    parts = der.counted(kind, 1, 2)
    octets, unused = bit_string(said, ber)
    if der.oid(parts[0]) == der.RSA:
        der.algorithm(kind, der.RSA)
        parameters = NULL
    else:
        need(len(parts) == 2 and der.oid(parts[0]) == der.EC_KEY and der.oid(parts[1]) == der.P256)
        parameters = tlv(6, der.P256)
    if octets:
        octets = octets[:-1] + bytes([octets[-1] >> unused << unused])
    return seq(seq(tlv(6, der.oid(parts[0])), parameters), bits(octets, unused))


class Carried(der.Cert):
    """The certificate that an object carries."""

    def __init__(self, value, ber):
        tbs, outer, said = der.counted(value, 3)
        version, number, inner, issuer, validity, subject, key, extended = der.counted(tbs, 8)
        need(der.integer(der.only(version, 0, der.CONTEXT), 2, 2) == 2)
        der.name(issuer), der.name(subject)
        self.told = [der.serial(number), der.algorithm(inner, der.SHA256_RSA), issuer.octets()]
        self.told += [moment(der.time(end)) for end in der.counted(validity, 2)]
        self.told += [subject.octets(), key_of(key, ber)]
        self.is_ca = self.subject_key = self.authority_key = self.extended_usage = self.crl_uri = self.ca_issuer = None
        self.policy, self.places, self.claims = None, {}, dict.fromkeys(der.KINDS, der.NONE)
        self.read_all(der.members(der.only(extended, 3, der.CONTEXT), 16), ber)
        octets, _ = bit_string(said, ber)
        self.told += [*self.extensions_told(), hashlib.sha256(tbs.octets()).digest(), der.algorithm(outer, der.SHA256_RSA), octets]

    def read_all(self, items, ber):
        found, policies = set(), set()
        for item in items:
            parts = der.counted(item, 2, 3)
            kind, critical = der.oid(parts[0]), len(parts) == 3 and truth(parts[1], ber)
            octets = string(parts[-1], ber)
            slot = "addresses" if kind in der.ADDRESSES else "numbers" if kind in der.NUMBERS else kind
            if slot not in der.READERS:
                need(not critical)
                continue
            wanted, read = der.READERS[slot]
            need(slot not in found and wanted in (None, critical))
            found.add(slot)
            if wanted is None:
                policies.add((der.ADDRESSES | der.NUMBERS)[kind])
            read(self, der.front(octets))
        need({der.SUBJECT_KEY, der.KEY_USAGE, der.POLICIES} <= found and policies == {self.policy})

    def extensions_told(self):
        claims = ["missing" if claim is None else "inherit" if claim == "inherit" else "listed" for claim in map(self.claims.get, der.KINDS)]
        uris = [uri and uri.decode() for uri in (self.crl_uri, self.ca_issuer, self.places.get("object"))]
        return [self.is_ca, self.subject_key, self.authority_key, self.extended_usage is not None, *uris, *claims]


def moment(digits):
    return digits.decode() + "Z"


class Object:
    """A signed object in front of octets: what is told of it, its content and that one's type."""

    def __init__(self, octets, ber):
        wrapped = der.counted(front(octets, ber), 2)
        need(der.oid(wrapped[0]) == der.SIGNED_DATA)
        version, digests, encapsulated, carried, signers = der.counted(der.only(wrapped[1], 0, der.CONTEXT), 5)
        der.integer(version, 3, 3)
        der.algorithm(der.only(digests, 17), der.SHA256)
        said, wrapped = der.counted(encapsulated, 2)
        self.kind, self.content = der.oid(said), string(der.only(wrapped, 0, der.CONTEXT), ber)
        cert = Carried(der.only(carried, 0, der.CONTEXT), ber)
        signer = self.signer(der.only(signers, 17), ber)
        need(signer[0] == cert.subject_key)
        self.told = [self.kind, self.content, *self.times, *signer, *cert.told]

    def signer(self, value, ber):
        version, key, digest, attributes, signing, signature = der.counted(value, 6)
        der.integer(version, 3, 3)
        der.algorithm(digest, der.SHA256)
        null = der.algorithm(signing, der.RSA, der.SHA256_RSA)
        found = {}
        for attribute in der.members(attributes, 0, der.CONTEXT):
            named, values = der.counted(attribute, 2)
            need(der.oid(named) not in found)
            found[der.oid(named)] = der.only(values, 17)
        needed, others = {der.CONTENT_TYPE, der.MESSAGE_DIGEST}, {der.SIGNING_TIME, der.BINARY_TIME}
        need(needed <= found.keys() <= needed | others and der.oid(found[der.CONTENT_TYPE]) == self.kind)
        self.times = [
            moment(der.time(found[der.SIGNING_TIME])) if der.SIGNING_TIME in found else None,
            der.integer(found[der.BINARY_TIME], 0, 2**64 - 1) if der.BINARY_TIME in found else None,
        ]
        octets = string(key, ber, (2, 0))
        need(len(octets) == 20)
        return [octets, attributes.inner(), self.kind, string(found[der.MESSAGE_DIGEST], ber), null, string(signature, ber)]


def word(fact):
    if fact is None:
        return "-"
    if isinstance(fact, bool):
        return "true" if fact else "false"
    return "x" + fact.hex() if isinstance(fact, bytes) else str(fact)


KINDS = {"manifest": der.MANIFEST, "roa": der.ROA, "aspa": der.ASPA}


def read(how, kind, octets):
    """What is read of octets, by this reader and by that of contents."""
    try:
        made = Object(octets, how == "relaxed")
        need(kind in ("any", "parts") or made.kind == KINDS[kind])
    except Refused:
        return "refused"
    told = " ".join(map(word, made.told))
    if kind == "any":
        return told
    if kind == "parts":  # what is handed over: both times stand in the attributes
        return " ".join(map(word, made.told[:2] + made.told[4:]))
    content = answer_of(kind, made.content)
    return content if content == "refused" else f"{told} {content}"


def read_all(how, kind, rows):
    answers = [read(how, kind, octets) for octets in rows]
    text = "".join(f"{answer}\n" for answer in answers)
    marks = "".join("-" if answer == "refused" else "x" for answer in answers)
    return f"{marks} x{hashlib.sha256(text.encode()).hexdigest()}"


# Objects of named parts.

CONTENTS = {"roa": (world.ROA, world.roa(64496, "192.0.2.0/24-25"), {"ipv4": ["192.0.2.0/24"]}),
            "aspa": (world.ASPA, world.aspa(64496, 64497, 64499), {"as": [64496]}),
            "manifest": (world.MANIFEST, world.manifest(7, (world.FIRST, world.LAST), [(b"a.roa", bytes(range(32)))]), world.INHERITS)}
MAKER = world.World()
# Places of the digest's algorithm.
DIGESTS = ((*rpki_relaxed.SIGNED_DATA, 1, 0), (*rpki_relaxed.SIGNER, 2))


def attribute(kind, *values):
    return seq(oid("1.2.840.113549.1.9." + kind), tlv(0x31, *values))


def short_name(text):
    return seq(tlv(0x31, seq(oid("2.5.4.3"), tlv(0x13, text))))


def made(what, **new):
    """An object of a kind; parts by their names are others, and stand there as they are given."""
    part = lambda name, *octets: new[name] if name in new else b"".join(octets)
    kind, content, claims = CONTENTS[what]
    identifier = MAKER.identifier(9)
    extensions = part("extensions", MAKER.subject_key(9), world.usage(False), world.policies(False), *world.claims_of(claims), part("further"))
    tbs = seq(part("tbs_version", tlv(0xA0, integer(2))), part("serial", integer(11)), part("inner", world.ALGORITHM),
              part("issuer", short_name(b"8")), part("validity", seq(world.time(world.FIRST), world.time(world.LAST))),
              part("subject", short_name(b"9")), part("key", world.encoded(9)), part("extended", tlv(0xA3, seq(extensions))), part("tbs_more"))
    cert = part("cert", seq(tbs, part("outer", world.ALGORITHM), part("cert_signature", bits(bytes(range(4)))), part("cert_more")))
    attributes = part("attributes", part("type", attribute("3", oid(kind))), part("digest", attribute("4", tlv(4, world.Fips.sha256(content)))),
        part("others"))
    signer = part("signer", seq(part("signer_version", integer(3)), part("sid", tlv(0x80, identifier)), part("signer_digest", SHA256),
                  part("signed", tlv(0xA0, attributes)), part("signing", RSA), part("signature", tlv(4, b"signature")), part("unsigned")))
    info = part("info", seq(part("content_type", oid(kind)), part("wrapped", tlv(0xA0, part("content", tlv(4, content)))), part("info_more")))
    data = seq(part("version", integer(3)), part("digests", tlv(0x31, part("one_digest", SHA256))), info, part("certificates", tlv(0xA0, cert)),
               part("crls"), part("signers", tlv(0x31, signer)), part("data_more"))
    return seq(part("signed_data", oid("1.2.840.113549.1.7.2")), part("explicit", tlv(0xA0, part("data", data))), part("more"))


def spelled(node, how):
    """The value in another spelling: `how` says of each the form of its length, and in which pieces a string stands."""
    form, pieces = how(node)
    inner = b"".join(spelled(member, how) for member in node.members) if node.constructed else node.inner()
    first = node.source[node.start]
    if pieces is not None and node.tag in ((0, 4), (2, 0)) and not node.constructed:
        cuts = [0, *sorted(min(at, len(inner)) for at in pieces), len(inner)]
        inner, first = b"".join(tlv(4, inner[a:b]) for a, b in zip(cuts, cuts[1:])), first | 32
    if form == "open" and first & 32:
        return bytes([first, 0x80]) + inner + b"\0\0"
    return bytes([first]) + sized(form, len(inner)) + inner


def sized(form, size):
    """A length, in so many octets behind the first one, or in as few as may be; `least` and `most` are of other lengths."""
    if form in ("least", "most"):
        return bytes.fromhex("8400000001" if form == "least" else "84ffffffff")
    least = 0 if size < 128 else (size.bit_length() + 7) // 8
    count = max(form, least) if isinstance(form, int) else least
    return bytes([0x80 + count]) + size.to_bytes(count, "big") if count else bytes([size])


def by_chance(node):
    return rng.choice(["open", "open", "shortest", 3, 4]), rng.choice([None, None, (), (3,), (0, 5, 5, 40)])


def opened(node):
    return "open", None


def respelled(octets, how=opened):
    return spelled(front(octets, False), how)


def nodes(value):
    yield value
    for member in value.members:
        yield from nodes(member)


# Changes of one part each.


def algorithm(kind, *behind):
    return seq(oid(kind), *behind)


SHA_512, SHA_1 = "2.16.840.1.101.3.4.2.3", "1.3.14.3.2.26"
RSA_SHA256, RSA_ONLY, RSA_SHA512 = (f"1.2.840.113549.1.1.{n}" for n in (11, 1, 13))


def integers(name, right):
    """Another version, an INTEGER that is longer than it has to be, and other values."""
    for octets in (b"\0", b"\1", b"\2", b"\3", b"\4", b"\0\3", b"\0\2", b"", b"\xff", b"\1\3", b"\x83"):
        yield {name: tlv(2, octets)}
    yield from ({name: octets} for octets in (b"", integer(right) * 2, tlv(0x82, bytes([right])), tlv(0x22, bytes([right])), tlv(10, bytes([right]))))


def digest_algorithms(name):
    for octets in (algorithm("2.16.840.1.101.3.4.2.1", NULL), algorithm(SHA_512), algorithm(SHA_1), algorithm("2.16.840.1.101.3.4.2.1", NULL, NULL),
            b"", SHA256 * 2,
                   algorithm("2.16.840.1.101.3.4.2.1", tlv(5, b"\0")), algorithm("2.16.840.1.101.3.4.2.1", integer(1)), tlv(0x31,
                       SHA256[2:]), seq(), NULL,
                   algorithm("2.16.840.1.101.3.4.2.1", tlv(0x25))):
        yield {name: octets}


def signature_algorithms(name):
    for octets in (algorithm(RSA_SHA256), algorithm(RSA_SHA256, NULL), algorithm(RSA_ONLY), algorithm(RSA_ONLY, NULL), algorithm(RSA_SHA512, NULL),
            b"",
                   algorithm(RSA_ONLY, NULL, NULL), algorithm(RSA_ONLY, seq()), SHA256, tlv(0x30, NULL, oid(RSA_ONLY)), RSA * 2):
        yield {name: octets}


def strings(name, octets, tag=4):
    """Strings in segments and in other forms, each of which BER reads or not."""
    half, other = len(octets) // 2, tag | 32
    pieces = tlv(4, octets[:half]) + tlv(4, octets[half:])
    for made_of in (tlv(tag, octets), tlv(other, pieces), tlv(other, tlv(0x24, pieces)), tlv(other, tlv(4, octets), tlv(4), tlv(0x24)), tlv(other),
                    bytes([other, 0x80]) + pieces + b"\0\0", bytes([other, 0x80, 0x24, 0x80]) + pieces + b"\0\0\0\0", bytes([other, 0x80]) + pieces,
                    bytes([other, 0x80]) + pieces + b"\0\0\0\0", tlv(other, pieces, b"\0\0"), bytes([tag, 0x80]) + pieces + b"\0\0", tlv(other,
                        octets[:2]),
                    tlv(other, tlv(0x80, octets)), tlv(other, tlv(3, octets)), tlv(other, tlv(0xA0, pieces)), tlv(other, seq(tlv(4,
                        octets))), tlv(other, tlv(12, octets)),
                    tlv(other, tlv(4, octets[:half]), tlv(5), tlv(4, octets[half:])), tlv(tag), tlv(tag, octets, b"\0"), tlv(tag,
                        octets[:-1]), tlv(3, b"\0", octets),
                    tlv(tag ^ 0x40, octets), tlv(tag, octets) * 2, b"", bytes([tag, 0x84, 0, 0, 0, len(octets)]) + octets,
                    bytes([tag, 0x85, 0, 0, 0, 0, len(octets)]) + octets, bytes([tag, 0x84, 255, 255, 255, 255]) + octets, bytes([tag,
                        255]) + octets):
        yield {name: made_of}


def attributes_changed():
    kind, content, _ = CONTENTS["roa"]
    typed, digest = attribute("3", oid(kind)), attribute("4", tlv(4, world.Fips.sha256(content)))
    utc, general, binary = tlv(0x17, b"250101000000Z"), tlv(0x18, b"20250101000000Z"), integer(1735689600)
    timed, counted = attribute("5", utc), attribute("16.2.46", binary)
    rows = [[], [typed], [digest], [typed, typed], [digest, digest], [digest, typed], [typed, digest, typed], [typed, digest, digest], [typed,
        digest, timed],
            [timed, digest, typed], [typed, digest, timed, timed], [typed, digest, counted], [counted, timed, digest, typed], [typed, digest,
                counted, counted],
            [typed, digest, timed, counted], [typed, digest, counted, attribute("5", general), timed], [typed, timed, counted], [digest, timed,
                counted]]
    rows += [[typed, digest, other] for other in (
        attribute("5", general), attribute("5", tlv(0x17, b"500101000000Z")), attribute("5", tlv(0x17, b"491231235959Z")), attribute("5", tlv(0x17,
            b"2501010000Z")),
        attribute("5", tlv(0x18, b"20250229000000Z")), attribute("5", tlv(0x18, b"20250101000000.5Z")), attribute("5", tlv(0x17,
            b"250101000000+0000")), attribute("5", tlv(0x37, utc)),
        attribute("5", tlv(0x37, tlv(4, b"250101000000Z"))), attribute("5"), attribute("5", utc, utc), attribute("5", binary), attribute("5",
            tlv(0x18, b"00000101000000Z")),
        attribute("16.2.46", integer(0)), attribute("16.2.46", integer(2**64 - 1)), attribute("16.2.46", integer(2**64)), attribute("16.2.46",
            tlv(2, b"\xff")),
        attribute("16.2.46", tlv(2, b"\0\1")), attribute("16.2.46", tlv(2)), attribute("16.2.46"), attribute("16.2.46", binary,
            binary), attribute("16.2.46", utc),
        attribute("15", seq()), attribute("52", oid(kind)), seq(), seq(oid("1.2.840.113549.1.9.5")), seq(tlv(0x31, utc)), timed[:-2], NULL,
        seq(oid("1.2.840.113549.1.9.5"), tlv(0x30, utc)), seq(oid("1.2.840.113549.1.9.5"), utc), tlv(0x31,
            timed[2:]), seq(oid("1.2.840.113549.1.9.5"), tlv(0x31, utc), NULL),
        seq(oid("1.2.840.113549.1.9.5"), tlv(0x31, utc), tlv(0x31)), seq(tlv(6), tlv(0x31, utc)), seq(tlv(6, b"\x80"), tlv(0x31,
            utc)), seq(tlv(0x26, b""), tlv(0x31, utc)))]
    yield from ({"attributes": b"".join(row)} for row in rows)
    for name in (world.MANIFEST, world.ASPA, "1.2.3"):
        yield {"type": attribute("3", oid(name))}
    yield from ({"type": octets} for octets in (attribute("3"), attribute("3", oid(kind), oid(kind)), attribute("3", tlv(4, oid(kind)[2:])),
        attribute("3", tlv(0x26, oid(kind)))))
    yield from ({"digest": attribute("4", change["digest"])} for change in strings("digest", world.Fips.sha256(content)))
    for change in strings("digest", b"short"):
        yield {"digest": attribute("4", *change.values())}
    for tag in (0xA1, 0x80, 0x31, 0xB0):
        yield {"signed": tlv(tag, typed, digest)}
    yield from ({"signed": octets} for octets in (b"", tlv(0xA0), tlv(0xA0, tlv(0x31, typed, digest)), tlv(0xA0, typed, digest) * 2, tlv(0xA0,
        digest, typed)))


def objects_changed():
    kind, content, _ = CONTENTS["roa"]
    identifier, cert = MAKER.identifier(9), front(made("roa"), False).members[1].members[0].members[3].members[0].octets()
    signer = front(made("roa"), False).members[1].members[0].members[4].members[0].octets()
    yield {}
    for name, right in (("version", 3), ("signer_version", 3)):
        yield from integers(name, right)
    yield {"tbs_version": tlv(0xA0, integer(1))}
    yield {"tbs_version": b""}
    for name in ("one_digest", "signer_digest"):
        yield from digest_algorithms(name)
    yield from ({"digests": octets} for octets in (tlv(0x31), b"", SHA256, seq(SHA256), tlv(0xA0, SHA256), tlv(0x31, SHA256) * 2))
    yield from signature_algorithms("signing")
    yield from strings("content", content)
    yield from strings("sid", identifier, 0x80)
    yield from strings("signature", b"signature")
    yield from attributes_changed()
    # The type, the content and what is around it.
    for name in (world.MANIFEST, world.ASPA, "1.2.840.113549.1.7.1", "1.2.3"):
        yield {"content_type": oid(name)}
        yield {"content_type": oid(name), "type": attribute("3", oid(name))}
    yield from ({"content_type": octets} for octets in (b"", tlv(6), tlv(6, b"\x80"), tlv(4, oid(kind)[2:]), oid(kind) * 2, tlv(0x26, oid(kind))))
    yield from ({"wrapped": octets} for octets in (b"", tlv(0xA0), tlv(4, content), tlv(0xA1, tlv(4, content)), tlv(0x80, content), tlv(0xA0, tlv(4,
        content), tlv(4)), tlv(0xA0, seq())))
    yield from ({"info": octets} for octets in (b"", seq(), tlv(0x31, oid(kind), tlv(0xA0, tlv(4, content))), seq(tlv(0xA0, tlv(4, content)),
        oid(kind))))
    for name in ("info_more", "data_more", "more", "unsigned", "tbs_more", "cert_more"):
        yield from ({name: octets} for octets in (NULL, tlv(0xA1), tlv(0xA1, attribute("52", NULL)), tlv(0x80), seq()))
    # The certificates, lists and signers.
    yield from ({"certificates": octets} for octets in (b"", tlv(0xA0), tlv(0xA0, cert, cert), tlv(0xA1, cert), tlv(0x31, cert), cert, tlv(0xA0,
        tlv(0x31, cert)), tlv(0xA0, NULL),
                tlv(0xA0, cert, NULL), tlv(0xA0, cert) * 2, tlv(0x80, cert)))
    crl = seq(seq(integer(1), world.ALGORITHM, MAKER.name(8), world.time(world.FIRST)), world.ALGORITHM, bits(b"x"))
    yield from ({"crls": octets} for octets in (tlv(0xA1), tlv(0xA1, crl), tlv(0xA1, crl, crl), tlv(0x81), NULL))
    yield from ({"signers": octets} for octets in (b"", tlv(0x31), tlv(0x31, signer, signer), seq(signer), signer, tlv(0xA1, signer), tlv(0x31,
        signer) * 2, tlv(0x31, NULL), tlv(0x31, signer, NULL)))
    yield from ({"sid": octets} for octets in (tlv(0x80, MAKER.identifier(8)), seq(MAKER.name(8), integer(11)), tlv(0xA0, tlv(0x80, identifier)),
        tlv(0x81, identifier), tlv(4, identifier)))
    yield from ({"signed_data": octets} for octets in (b"", oid("1.2.840.113549.1.7.1"), oid("1.2.840.113549.1.7.2") * 2, tlv(4, b"a")))
    yield from ({"explicit": octets} for octets in (b"", tlv(0xA0), tlv(0xA1, seq()), tlv(0x80), tlv(0xA0, NULL)))


def certificates_changed():
    identifier, own, policy = MAKER.identifier(9), MAKER.subject_key(9), world.policies(False)
    claims = list(world.claims_of(CONTENTS["roa"][2]))
    yield from integers("serial", 3)
    yield from ({"serial": integer(number)} for number in (2**159, 2**160 - 1, 2**160))
    for name in ("inner", "outer"):
        yield from signature_algorithms(name)
    for octets in (b"", seq(), seq(tlv(0x31)), tlv(0x31), seq(seq()), seq(tlv(0x31, seq(oid("2.5.4.3")))), seq(tlv(0x31, seq(oid("2.5.4.3"), NULL,
            NULL))), NULL,
                   seq(tlv(0x31, seq(oid("2.5.4.3"), seq(NULL, tlv(0x24, tlv(4, b"a")))))), seq(tlv(0x31, seq(oid("1.2.3"), tlv(0x33, tlv(4,
                       b"a"))), seq(tlv(6, b"\0"), NULL)), tlv(0x31)),
                   *map(bytes.fromhex, ("3080310030803108300606015513010000000000", "308031803080060155130100000000000000",
                                        "30803180308006015513010000000000"))):
        yield {"issuer": octets}
        yield {"subject": octets}
    first, last = world.time(world.FIRST), world.time(world.LAST)
    for octets in (b"", seq(first), seq(first, last, last), seq(last, first), seq(tlv(0x18, b"20240101000000Z"), last), seq(first, tlv(0x37,
            tlv(0x17, b"260101000000Z"))), tlv(0x31, first, last), seq()):
        yield {"validity": octets}
    key, curve = world.key_bits(9), seq(oid("1.2.840.10045.2.1"), oid("1.2.840.10045.3.1.7"))
    for octets in (seq(seq(oid(RSA_ONLY)), bits(key)), seq(curve, bits(key)), seq(curve, bits(key, 3)), seq(RSA, bits(key, 3)), seq(RSA,
            bits(b"\xff", 7)), seq(RSA, bits(b"")), seq(RSA, tlv(3, b"\1")), seq(RSA, tlv(3)),
                   seq(RSA, tlv(0x23, bits(key))), seq(RSA, tlv(4, key)), seq(RSA), seq(bits(key)), b"", seq(RSA, bits(key),
                       NULL), seq(algorithm(RSA_SHA256, NULL), bits(key)),
                   seq(algorithm("1.2.840.10045.2.1"), bits(key)), seq(algorithm("1.2.840.10045.2.1", oid("1.3.132.0.34")),
                       bits(key)), seq(algorithm(RSA_ONLY, NULL, NULL), bits(key)), seq(RSA, bits(key, 8))):
        yield {"key": octets}
    yield from ({"cert_signature": octets} for octets in (b"", bits(b"\xff", 7), bits(b"\x80", 7), bits(b""), tlv(3, b"\1"), tlv(3), tlv(0x23,
        bits(b"a")), tlv(4, b"a"), bits(b"a") * 2))
    # Extensions: critical as they must be, in each form of TRUE and FALSE, and in segments.
    for octets in (b"\0", b"\1", b"\x7f", b"\xff", b"", b"\0\0", b"\xff\xff"):
        for kind, value in (("2.5.29.14", tlv(4, identifier)), ("2.5.29.15", tlv(3, b"\7\x80")), ("1.2.3", b"any")):
            others = [own, world.usage(False), policy, *claims]
            others = [one for one in others if oid(kind) not in one]
            yield {"extensions": seq(oid(kind), tlv(1, octets), tlv(4, value)) + b"".join(others)}
    for change in strings("value", tlv(4, identifier)):
        yield {"extensions": seq(oid("2.5.29.14"), change["value"]) + b"".join([world.usage(False), policy, *claims])}
    for octets in (bytes([4, 0x81, 20]) + identifier, tlv(0x24, tlv(4, identifier)), tlv(4, identifier) + b"behind", tlv(4, identifier[1:])):
        yield {"extensions": seq(oid("2.5.29.14"), tlv(4, octets)) + b"".join([world.usage(False), policy, *claims])}
    for more in (own, policy, claims[0], world.extension("1.2.3", b""), world.extension("1.2.3", b"", True), world.extension("1.2.3", b"") * 2,
            seq(oid("1.2.3")), seq(), NULL,
                 seq(oid("1.2.3"), tlv(4), NULL), seq(tlv(4),
                     oid("1.2.3")), world.basic(False), world.basic(True), MAKER.authority_key(8), world.crl_point(b"rsync://a.example/m/c.crl"),
                 world.issuer_at(b"rsync://a.example/m/a.cer"), world.access((11, b"rsync://a.example/m/a.roa")), world.access((11,
                     b"https://a.example/m/a.roa")),
                 world.extension("2.5.29.37", seq(oid("1.2.3"))), world.extension("2.5.29.37",
                     seq()), *world.claims_of(INHERIT), *world.claims_of({"ipv4": ["192.0.2.0/24"]}, True)):
        yield {"further": more}
    for left in range(4):
        yield {"extensions": b"".join(one for at, one in enumerate([own, world.usage(False), policy, *claims]) if at != left)}
    yield from ({"extended": octets} for octets in (b"", tlv(0xA3), tlv(0xA3, seq()), tlv(0xA2, seq(own)), tlv(0xA3, tlv(0x31, own)), tlv(0xA3, own)))


INHERIT = {"as": "inherit"}


# Questions.


def signed(q):
    """Asks all."""

    def ask(how, kind, octets, expected=None):
        answer = read(how, kind, octets)
        assert expected is None or (answer == "refused") == (expected == "refused"), (how, kind, octets.hex())
        q.ask(answer, "object", how, kind, octets.hex())
        return answer

    def both(kind, octets):
        return [ask(how, kind, octets) for how in ("strict", "relaxed")]

    # Each part changed, in DER, and with all lengths indefinite that may be.
    for changes in (objects_changed(), certificates_changed()):
        for change in changes:
            octets = made("roa", **change)
            both("any", octets)
            try:
                opened_too = respelled(octets)
            except Refused:
                continue
            ask("relaxed", "any", opened_too)
    # Each kind as each kind, in DER and in ways of BER by chance.
    for what in CONTENTS:
        octets = made(what)
        for kind in ("any", *KINDS):
            for way in (octets, respelled(octets), octets + b"behind", respelled(octets) + b"\0\0"):
                ask("strict", kind, way, None if way.startswith(octets) else "refused")
                ask("relaxed", kind, way, "read" if kind in ("any", what) else "refused")
        for _ in range(20):
            ask("relaxed", what, respelled(octets, by_chance), "read")
    contents(ask)
    lengths(ask)
    worked(ask)
    deep(q)
    rows(q)
    for what in CONTENTS:
        octets = made(what)
        for way in (octets, respelled(octets), octets + b"behind", octets[:-1]):
            both("parts", way)


def contents(ask):
    """The content of a kind is DER in both modes; octets behind it stay unread."""
    for what, (_, content, _) in CONTENTS.items():
        value = front(content, False)
        for octets in (content + b"behind", spelled(value, opened), spelled(value, lambda node: (3, None)), b"\x30\x80" + value.inner() + b"\0\0",
                content[:-1], b"", seq(), content[:1] + b"\x84\xff\xff\xff\xff"):
            for how in ("strict", "relaxed"):
                new = {"content": tlv(4, octets)}
                ask(how, "any", made(what, **new), "read")
                ask(how, what, made(what, **new), "read" if octets == content + b"behind" else "refused")
        ask("relaxed", what, made(what, content=tlv(0x24, *(tlv(4, content[at : at + 1]) for at in range(len(content))))), "read")


def lengths(ask):
    """The length of each value of an object in each other form."""
    octets = made("roa")
    for place in (node.start for node in nodes(front(octets, False))):
        for form in ("open", 1, 4, 5, "least", "most"):
            way = spelled(front(octets, False), lambda node: (form if node.start == place else "shortest", None))
            ask("relaxed", "any", way)
            if form in ("open", 1):
                ask("strict", "any", way)


def worked(ask):
    """A ROA, and the manifest that lists it, in BER: the outer SEQUENCE of each is of no stated length, and the content of the ROA stands
    in two segments; behind SHA-256 stands NULL."""
    held = {"ipv4": ["192.0.2.0/24"]}
    anchor = MAKER.anchor(1, held)
    with_null = dict.fromkeys(DIGESTS, lambda first, octets: tlv(first, octets, NULL))
    ways = {(): rpki_relaxed.indefinite, **with_null}
    roa = anchor.signed(world.ROA, world.roa(64496, "192.0.2.0/24"), b"a.roa", held, key=1001, serial=11)
    anchor.files[b"a.roa"] = rpki_relaxed.spelled(roa, {**ways, rpki_relaxed.CONTENT: rpki_relaxed.FIRST_CUT})
    anchor.publish(key=1002, serial=12)
    manifest = rpki_relaxed.spelled(MAKER.objects[anchor.manifest], ways)
    for kind, octets in (("roa", anchor.files[b"a.roa"]), ("manifest", manifest)):
        ask("strict", kind, octets, "refused")
        ask("relaxed", kind, octets, "read")
        ask("relaxed", "any", octets, "read")


MARK = tlv(4, b"the mark")


def deep(q):
    """Ten thousand values in each other, where any value may stand, and where a string may be in segments."""

    def ask(how, octets, before, within, after):
        inner = b"".join(bytes.fromhex(piece) * count for piece, count in (before, within, after))
        expected = read(how, "any", octets.replace(MARK, inner))
        pieces = "+".join(f"{piece}*{count}" for piece, count in (before, within, after) if count)
        q.ask(expected, "object", how, "any", pieces.join(half.hex() for half in octets.split(MARK)).replace(pieces, f"+{pieces}+"))
        return expected

    named = seq(tlv(0x31, seq(oid("2.5.4.3"), MARK)))
    for name, value in (("issuer", named), ("subject", named), ("content", MARK), ("signature", MARK), ("digest", attribute("4", MARK)), ("others",
            MARK), ("crls", MARK), ("further", MARK)):
        octets = respelled(made("roa", **{name: value}))
        for first in ("3080", "2480"):
            told = ask("relaxed", octets, (first, 10000), ("0401aa", 1), ("0000", 10000))
            assert (told != "refused") == (name in ("issuer", "subject") or (first == "2480" and name in ("content", "signature", "digest"))), name
            assert ask("relaxed", octets, (first, 10000), ("0401aa", 1), ("0000", 9999)) == "refused"
        assert ask("strict", octets, ("2480", 10000), ("0401aa", 1), ("0000", 10000)) == "refused"
        # definite lengths, as DER has them
        inner = tlv(4, b"")
        for _ in range(1000):
            inner = seq(inner)
        for how in ("strict", "relaxed"):
            plain = made("roa", **{name: value.replace(MARK, inner) if value == MARK else seq(tlv(0x31, seq(oid("2.5.4.3"),
                inner))) if value == named else attribute("4", inner)})
            q.ask(read(how, "any", plain), "object", how, "any", plain.hex())
    for word_of in ("3080*10000", "2480*10000", "30*10000", "3084ffffffff*10000", "a080*10000", ""):
        for how in ("strict", "relaxed"):
            for kind in ("any", *KINDS):
                q.ask("refused", "object", how, kind, word_of)


def rows(q):
    """Each octet changed, in each of its bits; and each proper front."""
    small = made("roa")
    for octets in (small, respelled(small)):
        for how in ("strict", "relaxed"):
            if how == "strict" and octets != small:
                continue
            for bit in range(8):
                changed = [octets[:at] + bytes([octets[at] ^ 1 << bit]) + octets[at + 1 :] for at in range(len(octets))]
                q.ask(read_all(how, "roa", changed), "object", "flips", str(1 << bit), how, "roa", octets.hex())
            cut = [octets[:at] for at in range(len(octets))]
            told = read_all(how, "any", cut)
            assert "x" not in told.split()[0]
            q.ask(told, "object", "cuts", how, "any", octets.hex())
