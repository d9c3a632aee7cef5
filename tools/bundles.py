"""Reads what tools/compare.py and tools/quarantine.py ask about from a bundle: its objects, and what ROAs and ASPAs list.

Nothing is judged here: what an object lists counts only where `rpki_check` says that it is good. Objects in BER aren't read.
"""

import mmap
import os
import re

from routes import Customer, Origin

BOOLEAN, INTEGER, OCTET_STRING, OID, SEQUENCE = 0x01, 0x02, 0x04, 0x06, 0x30
PRINTABLE, IA5, GENERALIZED_TIME = 0x13, 0x16, 0x18
ROA = bytes.fromhex("2a864886f70d0109100118")
ASPA = bytes.fromhex("2a864886f70d0109100131")
AUTHORITY_ACCESS = bytes.fromhex("2b06010505070101")
CA_ISSUERS = bytes.fromhex("2b06010505073002")
SIZES = {1: (4, 32), 2: (6, 128)}
URI = re.compile(rb"(?i)(rsync|https)://[!-~]+\Z")


class Malformed(Exception):
    """Octets that aren't what was to be read."""


class Der:
    """Reads values in DER, one after another."""

    def __init__(self, octets, at=0, end=None):
        self.octets, self.at, self.end = octets, at, len(octets) if end is None else end

    def next(self, wanted=None):
        """Passes over the next value: its tag, and a reader of its content."""
        octets, at = self.octets, self.at
        if at + 2 > self.end:
            raise Malformed("the octets end within a value")
        tag, length = octets[at], octets[at + 1]
        at += 2
        if length >= 0x80:
            count = length - 0x80
            if not 1 <= count <= 4:
                raise Malformed("a length isn't in DER")
            length = int.from_bytes(octets[at : at + count], "big")
            at += count
        if at + length > self.end or (wanted is not None and tag != wanted):
            raise Malformed("a value is missing")
        self.at = at + length
        return tag, Der(octets, at, at + length)

    def of(self, wanted):
        return self.next(wanted)[1]

    def tag(self):
        return self.octets[self.at] if self.at < self.end else None

    def rest(self):
        return bytes(self.octets[self.at : self.end])

    def number(self):
        return int.from_bytes(self.of(INTEGER).rest(), "big", signed=True)

    def each(self):
        while self.at < self.end:
            yield self.next()


def lookup_key(uri):
    """The URI with scheme and host in lower case."""
    scheme, _, rest = uri.partition("://")
    host, slash, path = rest.partition("/")
    return f"{scheme.lower()}://{host.lower()}{slash}{path}"


class Bundle:
    """A bundle's file: where each object's octets lie, and the URIs of each locator."""

    def __init__(self, path):
        self.path = os.path.join(path, "bundle") if os.path.isdir(path) else path
        with open(self.path, "rb") as file:
            if not os.fstat(file.fileno()).st_size:
                raise Malformed("the file is empty")
            self.octets = mmap.mmap(file.fileno(), 0, access=mmap.ACCESS_READ)
        whole = Der(self.octets).of(SEQUENCE)
        whole.of(INTEGER)
        self.moment = whole.of(GENERALIZED_TIME).rest().decode("ascii", "replace")
        self.depth = whole.number()
        if whole.tag() == BOOLEAN:
            whole.next()
        self.locators = dict(self.locator(row) for _, row in whole.of(SEQUENCE).each())
        self.places = dict(self.place(row) for _, row in whole.of(SEQUENCE).each())

    @staticmethod
    def locator(row):
        name = row.of(PRINTABLE).rest().decode("ascii", "replace")
        lines = row.of(OCTET_STRING).rest().replace(b"\r\n", b"\n").split(b"\n")
        return name, [lookup_key(line.decode("ascii")) for line in lines if URI.match(line)]

    @staticmethod
    def place(row):
        uri = row.of(IA5).rest().decode("ascii", "replace")
        content = row.of(OCTET_STRING)
        return uri, (content.at, content.end)

    def object(self, uri):
        """A reader of an object's octets."""
        return Der(self.octets, *self.places[uri])

    def anchors(self):
        """The URIs of locators at which the bundle has an object."""
        return sorted({uri for uris in self.locators.values() for uri in uris if uri in self.places})

    def attestations(self):
        """Each ROA and ASPA that can be read: its URI and what it lists."""
        for uri in self.places:
            if uri[-4:].lower() in (".roa", ".asa"):
                try:
                    yield uri, listed(self.object(uri))
                except Malformed:
                    continue

    def issuer(self, uri):
        """The URI of the certificate that an object or a certificate names as its issuer's (RFC 6487 4.8.7), or None."""
        try:
            value = self.object(uri).of(SEQUENCE)
            return issuer_of(value if uri[-4:].lower() == ".cer" else signed_data(value)[1])
        except (Malformed, KeyError):
            return None


def signed_data(info):
    """A signed object's content, as a reader of type and value, and a reader of its certificate (RFC 6488)."""
    info.of(OID)
    data = info.of(0xA0).of(SEQUENCE)
    data.of(INTEGER)
    data.next()
    content = data.of(SEQUENCE)
    return content, data.of(0xA0).of(SEQUENCE)


def listed(octets):
    """What a ROA or an ASPA lists: origins, or one customer."""
    content, _ = signed_data(octets.of(SEQUENCE))
    kind = content.of(OID).rest()
    value = content.of(0xA0).of(OCTET_STRING).of(SEQUENCE)
    if kind == ROA:
        return list(origins_of(value))
    if kind == ASPA:
        return [customer_of(value)]
    raise Malformed("the object is neither")


def origins_of(value):
    """The origins of a ROA (RFC 9582 4)."""
    if value.tag() == 0xA0:
        value.next()
    asn = value.number()
    for _, family in value.of(SEQUENCE).each():
        version, size = SIZES.get(int.from_bytes(family.of(OCTET_STRING).rest()[:2], "big"), (None, None))
        if version is None:
            raise Malformed("an address family that no ROA has")
        for _, address in family.of(SEQUENCE).each():
            bits = address.of(0x03).rest()
            length = 8 * (len(bits) - 1) - bits[0] if bits else -1
            greatest = address.number() if address.tag() == INTEGER else length
            if not 0 <= length <= size:
                raise Malformed("a prefix of no address")
            yield Origin(version, int.from_bytes(bits[1:].ljust(size // 8, b"\0"), "big"), length, greatest, asn)


def customer_of(value):
    """The customer of an ASPA, with its providers."""
    if value.tag() == 0xA0:
        value.next()
    asn = value.number()
    providers = value.of(SEQUENCE)
    found = []
    while providers.tag() is not None:
        found.append(providers.number())
    return Customer(asn, tuple(sorted(found)))


def issuer_of(cert):
    """The URI of the issuer's certificate that a certificate names by rsync."""
    fields = cert.of(SEQUENCE)
    while fields.tag() not in (None, 0xA3):
        fields.next()
    for _, extension in fields.of(0xA3).of(SEQUENCE).each():
        if extension.of(OID).rest() != AUTHORITY_ACCESS:
            continue
        if extension.tag() == BOOLEAN:
            extension.next()
        for _, access in extension.of(OCTET_STRING).of(SEQUENCE).each():
            if access.of(OID).rest() == CA_ISSUERS and access.tag() == 0x86:
                return lookup_key(access.of(0x86).rest().decode("ascii", "replace"))
    return None
