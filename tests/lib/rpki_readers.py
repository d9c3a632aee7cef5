"""Readers of what a bundle holds, for tests/lib/rpki_model.py, in Python alone.

Octets are read by a reader after X.690 clause 8, and in DER clause 10, certificates and revocation lists by RFC 5280, RFC 6487 and
RFC 3779, signed objects by RFC 5652 and RFC 6488, their contents by RFC 9286, RFC 9582 and the ASPA draft, locators by
RFC 8630. A reader makes a value of octets, or raises `Refused`.
"""

import base64
import binascii
import calendar
import re


class Refused(Exception):
    """Octets, or a value, that aren't what was asked for."""


def need(condition):
    if not condition:
        raise Refused


# Values (X.690 8.1), strictly in DER (10.1), or in BER.


class Value:
    """A value: its tag, its content octets if it is primitive, its members if it isn't, and all octets that spell it.

    Where its length is indefinite, two zeros stand between the end of its content and its own."""

    __slots__ = ("tag", "constructed", "members", "source", "start", "content_start", "content_end", "end", "strict")

    def __init__(self, source, start, tag, constructed, content_start, end, strict=True):
        self.source, self.start, self.content_start, self.end = source, start, content_start, end
        self.tag, self.constructed, self.members = tag, constructed, []
        self.content_end, self.strict = end, strict

    def octets(self):
        return self.source[self.start : self.end]

    def inner(self):
        return self.source[self.content_start : self.content_end]


def header(source, at, end, strict):
    """The value that begins there, whose content isn't looked at yet; it has no end where its length is indefinite."""
    need(at < end)
    first, start = source[at], at
    number, at = first & 31, at + 1
    if number == 31:
        number, count = 0, 0
        while True:
            need(at < end and count < 3)
            octet = source[at]
            need(count > 0 or octet != 0x80)
            number, at, count = number << 7 | octet & 127, at + 1, count + 1
            if octet < 128:
                break
        need(number >= 31)
    need(at < end and (first >> 6, number) != (0, 0))
    size, at = source[at], at + 1
    if size == 128 and not strict:
        need(first & 32)
        return Value(source, start, (first >> 6, number), True, at, None, strict)
    if size >= 128:
        count = size - 128
        need(1 <= count <= 4 and at + count <= end)
        size = int.from_bytes(source[at : at + count], "big")
        at += count
        need(not strict or size >= 128 and size >= 1 << 8 * (count - 1))
    need(at + size <= end)
    return Value(source, start, (first >> 6, number), bool(first & 32), at, at + size, strict)


def front(source, strict=True):
    """The value in front, strictly in DER or else in BER; what is behind it isn't looked at."""
    top = header(source, 0, len(source), strict)
    # each with the place that its octets can't pass
    open_values, at = ([(top, len(source))] if top.constructed else []), top.content_start
    while open_values:
        last, most = open_values[-1]
        if at == last.end:
            open_values.pop()
            continue
        if last.end is None and at + 2 <= most and source[at : at + 2] == b"\0\0":
            last.content_end, last.end = at, at + 2
            at = last.end
            open_values.pop()
            continue
        within = most if last.end is None else last.end
        value = header(source, at, within, strict)
        last.members.append(value)
        if value.constructed:
            open_values.append((value, within))
            at = value.content_start
        else:
            at = value.end
    return top


UNIVERSAL, CONTEXT = 0, 2


def content(value, number, kind=UNIVERSAL):
    """The content octets of a primitive value with this tag."""
    need(not value.constructed and value.tag == (kind, number))
    return value.inner()


def members(value, number, kind=UNIVERSAL):
    need(value.constructed and value.tag == (kind, number))
    return value.members


def only(value, number, kind=UNIVERSAL):
    """The one member of a constructed value."""
    found = members(value, number, kind)
    need(len(found) == 1)
    return found[0]


def counted(value, *counts):
    found = members(value, 16)
    need(len(found) in counts)
    return found


def is_tagged(value, number, kind=UNIVERSAL):
    return value.tag == (kind, number)


def boolean(value):
    octets = content(value, 1)
    need(len(octets) == 1 and (not value.strict or octets in (b"\0", b"\xff")))
    return octets != b"\0"


def integer(value, least, most):
    octets = content(value, 2)
    need(octets and not (len(octets) > 1 and octets[0] in (0, 255) and octets[0] >> 7 == octets[1] >> 7))
    number = int.from_bytes(octets, "big", signed=True)
    need(least <= number <= most)
    return number


def null(value):
    need(content(value, 5) == b"")


def bits(value):
    """The octets of a bit string, and how many bits of the last one are unused."""
    octets = content(value, 3)
    need(octets and octets[0] <= 7)
    unused = octets[0]
    need(len(octets) > 1 or unused == 0)
    need(not value.strict or len(octets) == 1 or octets[-1] & (1 << unused) - 1 == 0)
    return octets[1:], unused


def octet_string(value, number=4, kind=UNIVERSAL):
    """The octets of an OCTET STRING with this tag; in BER it may stand in segments, which may do so too (8.7.3)."""
    if value.strict or not value.constructed:
        return content(value, number, kind)
    octets, parts = [], list(reversed(members(value, number, kind)))
    while parts:
        part = parts.pop()
        if part.constructed:
            parts += reversed(members(part, 4))
        else:
            octets.append(content(part, 4))
    return b"".join(octets)


def oid(value):
    octets = content(value, 6)
    need(octets and octets[-1] < 128)
    return octets


PRINTABLE = re.compile(rb"[A-Za-z0-9 '()+,\-./:=?]*")


def printable(value):
    octets = content(value, 19)
    need(PRINTABLE.fullmatch(octets))
    return octets


def ia5(octets):
    need(all(octet < 128 for octet in octets))
    return octets


def moment(text):
    """A moment's digits, which order as moments do: `YYYYMMDDHHMMSS`."""
    need(re.fullmatch(rb"[0-9]{14}Z", text))
    year, month, day, hour, minute, second = (int(text[a:b]) for a, b in ((0, 4), (4, 6), (6, 8), (8, 10), (10, 12), (12, 14)))
    need(1 <= month <= 12 and 1 <= day <= calendar.monthrange(year or 400, month)[1])
    need(hour < 24 and minute < 60 and second < 60)
    return text[:14]


def generalized(value):
    return moment(content(value, 24))


def time(value):
    """UTCTime of the years 1950 to 2049, or GeneralizedTime."""
    if is_tagged(value, 24):
        return generalized(value)
    text = content(value, 23)
    need(len(text) == 13)
    return moment((b"19" if text[:1] >= b"5" else b"20") + text)


def identifier(text):
    """The content octets of an object identifier."""
    first, second, *others = (int(part) for part in text.split("."))
    octets = []
    for number in [40 * first + second, *others]:
        groups = [number & 127]
        while number := number >> 7:
            groups.append(number & 127 | 128)
        octets += reversed(groups)
    return bytes(octets)


COMMON_NAME, SERIAL_NUMBER = identifier("2.5.4.3"), identifier("2.5.4.5")
SUBJECT_KEY, KEY_USAGE, BASIC = (identifier(f"2.5.29.{n}") for n in (14, 15, 19))
CRL_NUMBER, CRL_POINTS, POLICIES, AUTHORITY_KEY, EXTENDED_USAGE = (identifier(f"2.5.29.{n}") for n in (20, 31, 32, 35, 37))
PKIX = "1.3.6.1.5.5.7."
AIA, SIA = identifier(PKIX + "1.1"), identifier(PKIX + "1.11")
ADDRESSES = {identifier(PKIX + "1.7"): "refuse", identifier(PKIX + "1.28"): "trim"}
NUMBERS = {identifier(PKIX + "1.8"): "refuse", identifier(PKIX + "1.29"): "trim"}
POLICY = {identifier(PKIX + "14.2"): "refuse", identifier(PKIX + "14.3"): "trim"}
CA_ISSUERS = identifier(PKIX + "48.2")
PLACES = {identifier(PKIX + f"48.{n}"): name for n, name in ((5, "repository"), (10, "manifest"), (11, "object"), (13, "notify"))}
RSA, SHA256_RSA = identifier("1.2.840.113549.1.1.1"), identifier("1.2.840.113549.1.1.11")
EC_KEY, P256 = identifier("1.2.840.10045.2.1"), identifier("1.2.840.10045.3.1.7")
SHA256 = identifier("2.16.840.1.101.3.4.2.1")
SIGNED_DATA = identifier("1.2.840.113549.1.7.2")
CONTENT_TYPE, MESSAGE_DIGEST, SIGNING_TIME = (identifier(f"1.2.840.113549.1.9.{n}") for n in (3, 4, 5))
BINARY_TIME = identifier("1.2.840.113549.1.9.16.2.46")
ROA, MANIFEST, ASPA = (identifier(f"1.2.840.113549.1.9.16.1.{n}") for n in (24, 26, 49))


# URIs.


def uri_kind(text):
    if not re.fullmatch(rb"[!-~]*", text):
        return None
    if re.fullmatch(rb"(?i:rsync://)[^/]+/[^/]+(/.*)?", text):
        return "rsync"
    return "https" if re.fullmatch(rb"(?i:https://)[^/]+(/.*)?", text) else None


def lookup_key(uri):
    host = uri[8:].split(b"/", 1)[0]
    return (uri[:8] + host).lower() + uri[8 + len(host) :]


def join(folder, name):
    return folder + name if folder.endswith(b"/") else folder + b"/" + name


def parent(uri):
    """Of an rsync URI, up to the slash before its last segment; None where nothing stands behind the module."""
    host, module, *path = uri[8:].split(b"/", 2)
    if not path or not path[0]:
        return None
    shorter = path[0].removesuffix(b"/")
    return uri[:8] + host + b"/" + module + b"/" + shorter[: shorter.rfind(b"/") + 1]


def is_identical(one, other):
    return lookup_key(one).removesuffix(b"/") == lookup_key(other).removesuffix(b"/")


# Sets of numbers, as lists of runs: ascending, apart from each other.

KINDS = {"ipv4": 2**32 - 1, "ipv6": 2**128 - 1, "as": 2**32 - 1}
NONE, INHERIT = None, "inherit"


def joined(runs):
    found = []
    for first, last in sorted(runs):
        if found and first <= found[-1][1] + 1:
            found[-1] = found[-1][0], max(last, found[-1][1])
        else:
            found.append((first, last))
    return found


# Certificates (RFC 5280 4, RFC 6487 4) and revocation lists (RFC 5280 5).


def algorithm(value, *allowed):
    """Whether NULL stands behind the identifier, which is one of the allowed ones."""
    parts = counted(value, 1, 2)
    need(oid(parts[0]) in allowed)
    if len(parts) == 2:
        null(parts[1])
    return len(parts) == 2


class Key:
    def __init__(self, value):
        kind, octets = counted(value, 2)
        parts = counted(kind, 1, 2)
        self.is_rsa = oid(parts[0]) == RSA
        if self.is_rsa:
            algorithm(kind, RSA)
        else:
            need(len(parts) == 2 and oid(parts[0]) == EC_KEY and oid(parts[1]) == P256)
        self.bits, unused = bits(octets)
        # in DER an RSA key has NULL behind its algorithm, and unused bits are zeros
        cleared = self.bits[:-1] + bytes(octet >> unused << unused for octet in self.bits[-1:])
        self.encoded = tlv(0x30, (RSA_WITH_NULL if self.is_rsa else EC_P256) + tlv(3, bytes([unused]) + cleared))


def tlv(tag, octets):
    size = len(octets)
    length = size.to_bytes((size.bit_length() + 7) // 8, "big")
    return bytes([tag, size] if size < 128 else [tag, 128 + len(length), *length]) + octets


RSA_WITH_NULL, EC_P256 = tlv(0x30, tlv(6, RSA) + b"\x05\0"), tlv(0x30, tlv(6, EC_KEY) + tlv(6, P256))


def name(value):
    """The attributes of a name, whatever they are."""
    found = []
    for part in members(value, 16):
        for attribute in members(part, 17):
            kind, said = counted(attribute, 2)
            found.append((oid(kind), said))
    return found


def is_rpki_name(attributes):
    try:
        for _, said in attributes:
            printable(said)
    except Refused:
        return False
    return sorted(kind for kind, _ in attributes) in ([COMMON_NAME], [COMMON_NAME, SERIAL_NUMBER])


def serial(value):
    return integer(value, 0, 2**160 - 1)


def extensions(value):
    """The identifier, whether it is critical, and the octets of each extension."""
    for item in members(value, 16):
        parts = counted(item, 2, 3)
        yield oid(parts[0]), len(parts) == 3 and boolean(parts[1]), octet_string(parts[-1])


def uris_named(values):
    return [ia5(content(value, 6, CONTEXT)) for value in values]


def one_rsync(values):
    found = [uri for uri in uris_named(values) if uri_kind(uri) == "rsync"]
    need(len(found) == 1)
    return found[0]


def crl_uri(value):
    point = only(only(value, 16), 16)
    return one_rsync(members(only(point, 0, CONTEXT), 0, CONTEXT))


def ca_issuer(value):
    method, *names = members(only(value, 16), 16)
    need(oid(method) == CA_ISSUERS)
    return one_rsync(names)


def places(value):
    """By method the first readable URI; https for rpkiNotify, else rsync."""
    found = {}
    need(members(value, 16))
    for item in value.members:
        parts = members(item, 16)
        need(parts)
        method = PLACES.get(oid(parts[0]))
        if method is None:
            continue
        need(len(parts) == 2)
        (uri,) = uris_named(parts[1:])
        if uri_kind(uri) == ("https" if method == "notify" else "rsync"):
            found.setdefault(method, uri)
    return found


def address_end(value, width, fill):
    octets, unused = bits(value)
    count = 8 * len(octets) - unused
    need(count <= width)
    low = int.from_bytes(octets, "big") >> unused << width - count
    return low | (fill and (1 << width - count) - 1)


def address_run(value, width):
    ends = counted(value, 2) if is_tagged(value, 16) else [value, value]
    run = address_end(ends[0], width, 0), address_end(ends[1], width, 1)
    need(run[0] <= run[1])
    return run


def addresses(value):
    found = {}
    need(members(value, 16))
    for item in value.members:
        family, listed = counted(item, 2)
        kind = {b"\0\1": "ipv4", b"\0\2": "ipv6"}.get(octet_string(family))
        need(kind and kind not in found)
        width = KINDS[kind].bit_length()
        if is_tagged(listed, 5):
            null(listed)
            found[kind] = INHERIT
        else:
            found[kind] = joined(address_run(block, width) for block in members(listed, 16))
    return found


def number_run(value):
    ends = counted(value, 2) if is_tagged(value, 16) else [value, value]
    run = tuple(integer(end, 0, 2**32 - 1) for end in ends)
    need(run[0] <= run[1])
    return run


def numbers(value):
    listed = only(only(value, 16), 0, CONTEXT)
    if is_tagged(listed, 5):
        null(listed)
        return {"as": INHERIT}
    return {"as": joined(number_run(block) for block in members(listed, 16))}


class Cert:
    """A certificate of the RPKI, read from the front of octets, or of a value."""

    def __init__(self, value):
        tbs, outer, signature = counted(value, 3)
        version, number, inner, issuer, validity, subject, key, extended = counted(tbs, 8)
        need(integer(only(version, 0, CONTEXT), 2, 2) == 2)
        self.serial = serial(number)
        self.same_algorithms = algorithm(inner, SHA256_RSA) == algorithm(outer, SHA256_RSA)
        self.issuer, self.subject = name(issuer), name(subject)
        self.not_before, self.not_after = (time(end) for end in counted(validity, 2))
        self.key = Key(key)
        self.message, (self.signature, _) = tbs.octets(), bits(signature)
        self.is_ca = self.subject_key = self.authority_key = self.key_usage = self.crl_uri = self.ca_issuer = None
        self.extended_usage = self.policy = self.places = None
        self.claims = dict.fromkeys(KINDS, NONE)
        self.read_extensions(only(extended, 3, CONTEXT))

    def read_extensions(self, value):
        found, policies = set(), set()
        for kind, critical, octets in extensions(value):
            slot = "addresses" if kind in ADDRESSES else "numbers" if kind in NUMBERS else kind
            if slot not in READERS:
                need(not critical)
                continue
            wanted, read = READERS[slot]
            need(slot not in found and wanted in (None, critical))
            found.add(slot)
            if wanted is None:
                policies.add((ADDRESSES | NUMBERS)[kind])
            read(self, front(octets))
        need({SUBJECT_KEY, KEY_USAGE, POLICIES} <= found and policies == {self.policy})

    def read_basic(self, value):
        parts = counted(value, 0, 1)
        self.is_ca = bool(parts) and boolean(parts[0])

    def read_subject_key(self, value):
        self.subject_key = octet_string(value)
        need(len(self.subject_key) == 20)

    def read_authority_key(self, value):
        self.authority_key = content(only(value, 16), 0, CONTEXT)
        need(len(self.authority_key) == 20)

    def read_usage(self, value):
        self.key_usage = {(b"\x06", 1): "ca", (b"\x80", 7): "ee"}.get(bits(value))
        need(self.key_usage)

    def read_extended(self, value):
        self.extended_usage = [oid(part) for part in members(value, 16)]
        need(self.extended_usage)

    def read_crl_uri(self, value):
        self.crl_uri = crl_uri(value)

    def read_ca_issuer(self, value):
        self.ca_issuer = ca_issuer(value)

    def read_places(self, value):
        self.places = places(value)

    def read_policy(self, value):
        self.policy = POLICY.get(oid((members(only(value, 16), 16) or [value])[0]))
        need(self.policy)

    def read_addresses(self, value):
        self.claims |= addresses(value)

    def read_numbers(self, value):
        self.claims |= numbers(value)

    def place(self, method):
        return (self.places or {}).get(method)


# For each extension whether it has to be critical (None: either), and its reader.
READERS = {
    BASIC: (True, Cert.read_basic),
    SUBJECT_KEY: (False, Cert.read_subject_key),
    AUTHORITY_KEY: (False, Cert.read_authority_key),
    KEY_USAGE: (True, Cert.read_usage),
    EXTENDED_USAGE: (False, Cert.read_extended),
    CRL_POINTS: (False, Cert.read_crl_uri),
    AIA: (False, Cert.read_ca_issuer),
    SIA: (False, Cert.read_places),
    POLICIES: (True, Cert.read_policy),
    "addresses": (None, Cert.read_addresses),
    "numbers": (None, Cert.read_numbers),
}


class Crl:
    def __init__(self, value):
        tbs, outer, signature = counted(value, 3)
        version, inner, issuer, this, following, *entries, extended = counted(tbs, 6, 7)
        integer(version, 1, 1)
        need(algorithm(inner, SHA256_RSA) == algorithm(outer, SHA256_RSA))
        name(issuer)
        self.this, self.next = time(this), time(following)
        self.serials = set()
        for entry in members(entries[0], 16) if entries else []:
            number, date = counted(entry, 2)
            time(date)
            self.serials.add(serial(number))
        found = {kind: octets for kind, _, octets in extensions(only(extended, 0, CONTEXT))}
        need(found.keys() == {AUTHORITY_KEY, CRL_NUMBER} and len(only(extended, 0, CONTEXT).members) == 2)
        self.authority_key = content(only(front(found[AUTHORITY_KEY]), 16), 0, CONTEXT)
        need(len(self.authority_key) == 20)
        self.number = serial(front(found[CRL_NUMBER]))
        self.message, (self.signature, _) = tbs.octets(), bits(signature)


# Signed objects (RFC 5652 5, RFC 6488) and their contents.


def digest_algorithm(value):
    algorithm(value, SHA256)


class Signer:
    """Who signs content of a kind, by the identifier of a key, and what is signed."""

    def __init__(self, value, kind):
        version, key, digest, attributes, signing, signature = counted(value, 6)
        integer(version, 3, 3)
        self.key = octet_string(key, 0, CONTEXT)
        need(len(self.key) == 20)
        digest_algorithm(digest)
        self.has_null = algorithm(signing, RSA, SHA256_RSA)
        self.signature = octet_string(signature)
        found = {}
        for attribute in members(attributes, 0, CONTEXT):
            named, values = counted(attribute, 2)
            need(oid(named) not in found)
            found[oid(named)] = only(values, 17)
        need({CONTENT_TYPE, MESSAGE_DIGEST} <= found.keys() <= {CONTENT_TYPE, MESSAGE_DIGEST, SIGNING_TIME, BINARY_TIME})
        need(oid(found[CONTENT_TYPE]) == kind)
        self.digest = octet_string(found[MESSAGE_DIGEST])
        self.signing_time = time(found[SIGNING_TIME]) if SIGNING_TIME in found else None
        if BINARY_TIME in found:
            integer(found[BINARY_TIME], 0, 2**64 - 1)
        # the attributes are signed as a SET (RFC 5652 5.4)
        self.attributes = attributes.inner()
        self.message = tlv(0x31, self.attributes)


class Object:
    """A signed object in front of octets: its certificate, its content, and what its signer signed."""

    def __init__(self, octets, kind, strict):
        wrapped = counted(front(octets, strict), 2)
        need(oid(wrapped[0]) == SIGNED_DATA)
        version, digests, encapsulated, carried, signers = counted(only(wrapped[1], 0, CONTEXT), 5)
        integer(version, 3, 3)
        digest_algorithm(only(digests, 17))
        said, wrapped = counted(encapsulated, 2)
        need(oid(said) == kind)
        self.content = octet_string(only(wrapped, 0, CONTEXT))
        self.cert = Cert(only(carried, 0, CONTEXT))
        signer = Signer(only(signers, 17), kind)
        need(signer.key == self.cert.subject_key)
        self.digest, self.signing_time = signer.digest, signer.signing_time
        self.message, self.signature = signer.message, signer.signature


def after_version(parts, number):
    """The parts behind the version, which may be absent where it is the default 0."""
    if parts and is_tagged(parts[0], 0, CONTEXT):
        integer(only(parts[0], 0, CONTEXT), number, number)
        return parts[1:]
    need(number == 0)
    return parts


FILE_NAME = re.compile(rb"[A-Za-z0-9_-]+\.[A-Za-z]{3}")


class Manifest(Object):
    def __init__(self, octets, strict=True):
        super().__init__(octets, MANIFEST, strict)
        fields = after_version(members(front(self.content), 16), 0)
        need(len(fields) == 5 and oid(fields[3]) == SHA256)
        serial(fields[0])
        self.this, self.next = generalized(fields[1]), generalized(fields[2])
        self.files = []
        for item in members(fields[4], 16):
            file, digest = counted(item, 2)
            octets, unused = bits(digest)
            need(FILE_NAME.fullmatch(content(file, 22)) and unused == 0)
            self.files.append((content(file, 22), octets))


class Roa(Object):
    def __init__(self, octets, strict=True):
        super().__init__(octets, ROA, strict)
        fields = after_version(members(front(self.content), 16), 0)
        need(len(fields) == 2)
        self.asn = integer(fields[0], 0, 2**32 - 1)
        # of each its kind, address, length and greatest length
        self.prefixes, found = [], set()
        need(1 <= len(members(fields[1], 16)) <= 2)
        for item in fields[1].members:
            family, listed = counted(item, 2)
            kind = {b"\0\1": "ipv4", b"\0\2": "ipv6"}.get(octet_string(family))
            need(kind and kind not in found)
            found.add(kind)
            self.prefixes += (self.prefix(kind, entry) for entry in members(listed, 16))

    @staticmethod
    def prefix(kind, value):
        address, *greatest = counted(value, 1, 2)
        width = KINDS[kind].bit_length()
        first = address_end(address, width, 0)
        octets, unused = bits(address)
        length = 8 * len(octets) - unused
        return kind, first, length, integer(greatest[0], length, width) if greatest else length


class Aspa(Object):
    def __init__(self, octets, strict=True):
        super().__init__(octets, ASPA, strict)
        fields = after_version(members(front(self.content), 16), 1)
        need(len(fields) == 2)
        self.customer = integer(fields[0], 0, 2**32 - 1)
        self.providers = [integer(part, 0, 2**32 - 1) for part in members(fields[1], 16)]
        need(1 <= len(self.providers) <= 10_000 and self.customer not in self.providers)
        need(all(a < b for a, b in zip(self.providers, self.providers[1:])))
        need(0 not in self.providers or len(self.providers) == 1)


class Locator:
    """A trust anchor locator (RFC 8630 2.2)."""

    def __init__(self, text):
        lines, rest, self.uris = True, text, []
        while True:
            line, found, rest = rest.partition(b"\n")
            need(found)
            line = line.removesuffix(b"\r")
            if lines and line.startswith(b"#"):
                continue
            lines = False
            if not line:
                break
            need(uri_kind(line))
            self.uris.append(line)
        need(self.uris)
        digits = rest.translate(None, b"\t\n\f\r ")
        need(re.fullmatch(rb"[A-Za-z0-9+/]*={0,2}", digits) and len(digits) % 4 == 0)
        try:
            octets = base64.b64decode(digits, validate=True)
        except binascii.Error:
            raise Refused from None
        need(base64.b64encode(octets) == digits)
        self.key = Key(front(octets))

    def in_order(self):
        return sorted(self.uris, key=lambda uri: uri_kind(uri) != "https")


# Bundles.


def ascends(rows):
    return all(a < b for a, b in zip(rows, rows[1:]))


class Bundle:
    """The bundle that the octets are, all of them."""

    def __init__(self, octets):
        top = front(octets)
        need(top.end == len(octets))
        version, at, depth, *flag, locators, objects, verdicts = counted(top, 6, 7)
        # version 1 has a flag, and version 0 has none
        integer(version, len(flag), len(flag))
        self.strict = not any(map(boolean, flag))
        self.moment, self.depth = generalized(at), integer(depth, 1, 32)
        self.locators = [(printable(a), octet_string(b)) for a, b in self.rows(locators, 2)]
        need(all(text and b" " not in text for text, _ in self.locators))
        self.objects = [(content(a, 22), octet_string(b)) for a, b in self.rows(objects, 2)]
        need(all(uri_kind(uri) and lookup_key(uri) == uri for uri, _ in self.objects))
        self.verdicts = [tuple(map(octet_string, row)) for row in self.rows(verdicts, 3)]
        need(all(len(digest) == 32 for row in self.verdicts for digest in row))
        for rows in ([row[0] for row in self.locators], [row[0] for row in self.objects], self.verdicts):
            need(ascends(rows))

    @staticmethod
    def rows(value, count):
        return [counted(row, count) for row in members(value, 16)]


def read_bundle(octets):
    """The bundle, or None."""
    try:
        return Bundle(octets)
    except Refused:
        return None
