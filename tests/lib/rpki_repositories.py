"""Small repositories for tests: certificates, revocation lists, manifests and objects, and the bundles of them.

The signer is one for tests: key n is an RSA key whose bits hold n as eight octets, and its signature is the SHA-256
digest of these bits followed by the message. Each signature that is made so has its line in the bundle's table. The DER
is written here (X.690 8, 10), by RFC 5280, RFC 6487, RFC 3779, RFC 5652, RFC 6488, RFC 9286, RFC 9582 and the ASPA draft.
"""

import base64
import hashlib
import ipaddress

MOMENT = b"20250101000000Z"
FIRST, LAST = b"20240101000000Z", b"20260101000000Z"
HOST = b"rsync://r.example/m/"
INHERITS = {"ipv4": "inherit", "ipv6": "inherit", "as": "inherit"}
FAMILIES = {"ipv4": b"\0\1", "ipv6": b"\0\2"}


def tlv(tag, *parts):
    octets = b"".join(parts)
    size = len(octets)
    length = size.to_bytes((size.bit_length() + 7) // 8, "big")
    return bytes([tag, size] if size < 128 else [tag, 128 + len(length), *length]) + octets


def seq(*parts):
    return tlv(0x30, *parts)


def integer(number):
    return tlv(2, number.to_bytes(number.bit_length() // 8 + 1, "big", signed=True))


def oid(text):
    first, second, *others = (int(part) for part in text.split("."))
    octets = []
    for number in [40 * first + second, *others]:
        groups = [number & 127]
        while number := number >> 7:
            groups.append(number & 127 | 128)
        octets += reversed(groups)
    return tlv(6, bytes(octets))


def bits(octets, unused=0):
    return tlv(3, bytes([unused]), octets)


def time(text):
    """UTCTime to 2049, else GeneralizedTime (RFC 5280 4.1.2.5)."""
    return tlv(0x17, text[2:]) if text < b"2050" else tlv(0x18, text)


NULL = tlv(5)
ALGORITHM = seq(oid("1.2.840.113549.1.1.11"), NULL)
RSA = seq(oid("1.2.840.113549.1.1.1"), NULL)
SHA256 = seq(oid("2.16.840.1.101.3.4.2.1"))
ROA, MANIFEST, ASPA = (f"1.2.840.113549.1.9.16.1.{n}" for n in (24, 26, 49))
PKIX = "1.3.6.1.5.5.7."


class Fips:
    """The digests of FIPS 180-4."""

    @staticmethod
    def sha256(octets):
        return hashlib.sha256(octets).digest()

    @staticmethod
    def sha1(octets):
        return hashlib.sha1(octets).digest()


class Constant:
    """Digests that are the same for all octets."""

    @staticmethod
    def sha256(_octets):
        return b"\x51" * 32

    @staticmethod
    def sha1(_octets):
        return b"\x52" * 20


# Keys.


def key_bits(key):
    return key.to_bytes(8, "big")


def encoded(key):
    return seq(RSA, bits(key_bits(key)))


# Extensions (RFC 6487 4.8).


def extension(kind, value, critical=False):
    return seq(oid(kind), tlv(1, b"\xff") if critical else b"", tlv(4, value))


def uri_name(uri):
    return tlv(0x86, uri)


def basic(is_ca=True):
    return extension("2.5.29.19", seq(tlv(1, b"\xff") if is_ca else b""), True)


def usage(is_ca):
    return extension("2.5.29.15", tlv(3, b"\1\6" if is_ca else b"\7\x80"), True)


def crl_point(uri):
    return extension("2.5.29.31", seq(seq(tlv(0xA0, tlv(0xA0, uri_name(uri))))))


def issuer_at(uri):
    return extension(PKIX + "1.1", seq(seq(oid(PKIX + "48.2"), uri_name(uri))))


def access(*entries):
    """Methods, by their last number, with their URIs."""
    return extension(PKIX + "1.11", seq(*(seq(oid(PKIX + f"48.{method}"), uri_name(uri)) for method, uri in entries)))


def policies(trims):
    return extension("2.5.29.32", seq(seq(oid(PKIX + ("14.3" if trims else "14.2")))), True)


def end_bits(number, width, fill):
    """An end of a range: the bits before the last ones that are all `fill`."""
    count = width
    while count and number >> width - count & 1 == fill:
        count -= 1
    octets = (number >> width - count << -count % 8).to_bytes((count + 7) // 8, "big")
    return bits(octets, -count % 8)


def prefix_bits(network):
    size = (network.prefixlen + 7) // 8
    return bits(network.network_address.packed[:size], 8 * size - network.prefixlen)


def block(item):
    """A prefix, or a pair of addresses."""
    if isinstance(item, str):
        return prefix_bits(ipaddress.ip_network(item))
    low, high = map(ipaddress.ip_address, item)
    return seq(end_bits(int(low), low.max_prefixlen, 0), end_bits(int(high), low.max_prefixlen, 1))


def number_block(item):
    return seq(*map(integer, item)) if isinstance(item, tuple) else integer(item)


def claims_of(claims, trims=False):
    """The extensions for resources: by kind a list of blocks, or `inherit`; a kind that isn't there is missing."""
    families = [
        seq(tlv(4, FAMILIES[kind]), NULL if claims[kind] == "inherit" else seq(*map(block, claims[kind])))
        for kind in FAMILIES
        if kind in claims
    ]
    if families:
        yield extension(PKIX + ("1.28" if trims else "1.7"), seq(*families), True)
    if "as" in claims:
        listed = NULL if claims["as"] == "inherit" else seq(*map(number_block, claims["as"]))
        yield extension(PKIX + ("1.29" if trims else "1.8"), seq(tlv(0xA0, listed)), True)


# Contents (RFC 9582 4, the ASPA draft 3, RFC 9286 4).


def roa(asn, *prefixes):
    """An AS number, and prefixes with their greatest lengths, if any: `192.0.2.0/24` or `192.0.2.0/24-26`."""
    families = []
    for kind, version in (("ipv4", 4), ("ipv6", 6)):
        entries = []
        for text in prefixes:
            prefix, _, most = text.partition("-")
            network = ipaddress.ip_network(prefix)
            if network.version == version:
                entries.append(seq(prefix_bits(network), integer(int(most)) if most else b""))
        if entries:
            families.append(seq(tlv(4, FAMILIES[kind]), seq(*entries)))
    return seq(integer(asn), seq(*families))


def aspa(customer, *providers):
    return seq(tlv(0xA0, integer(1)), integer(customer), seq(*map(integer, providers)))


def manifest(number, updates, files):
    """Names of files with their hashes."""
    listed = (seq(tlv(0x16, name), bits(digest)) for name, digest in files)
    return seq(integer(number), *(tlv(0x18, text) for text in updates), oid("2.16.840.1.101.3.4.2.1"), seq(*listed))


class World:
    """What a bundle is made of, and the signer."""

    def __init__(self, depth=32, moment=MOMENT, digests=Fips):
        self.depth, self.moment, self.digests = depth, moment, digests
        self.locators, self.objects, self.verdicts = {}, {}, []
        self.count = 0
        # whether a bundle of version 1 is relaxed; None is one of version 0
        self.relaxed = None

    def number(self):
        """A serial number, or a key, that wasn't given before."""
        self.count += 1
        return self.count + 1000

    def identifier(self, key):
        return self.digests.sha1(key_bits(key))

    def name(self, key):
        """The name made of the key's identifier."""
        text = self.identifier(key).hex().encode()
        return seq(tlv(0x31, seq(oid("2.5.4.3"), tlv(0x13, text))))

    def sign(self, key, message):
        signature = hashlib.sha256(key_bits(key) + message).digest()
        row = tuple(map(self.digests.sha256, (encoded(key), message, signature)))
        if row not in self.verdicts:
            self.verdicts.append(row)
        return signature

    def altered(self, octets):
        """The octets of a value that is about to be signed; a world by chance changes some."""
        return octets

    def spelled(self, octets):
        """The octets of a signed object that is about to be published; a world by chance spells some in BER."""
        return octets

    def cert(self, key, issuer, extensions, serial=None, validity=(FIRST, LAST), signer=None):
        tbs = self.altered(
            seq(
                tlv(0xA0, integer(2)),
                integer(self.number() if serial is None else serial),
                ALGORITHM,
                self.name(issuer),
                seq(*map(time, validity)),
                self.name(key),
                encoded(key),
                tlv(0xA3, seq(*extensions)),
            )
        )
        return seq(tbs, ALGORITHM, bits(self.sign(issuer if signer is None else signer, tbs)))

    def subject_key(self, key):
        return extension("2.5.29.14", tlv(4, self.identifier(key)))

    def authority_key(self, key):
        return extension("2.5.29.35", seq(tlv(0x80, self.identifier(key))))

    def anchor(self, key, claims, locator=b"t", at=HOST + b"ta.cer", folder=HOST + b"ta/", trims=False, **how):
        """A trust anchor with its locator."""
        authority = Authority(self, key, at, folder, b"ta")
        extensions = [
            basic(),
            self.subject_key(key),
            self.authority_key(key),
            usage(True),
            authority.access(),
            policies(trims),
            *claims_of(claims, trims),
        ]
        self.objects[at] = self.cert(key, key, extensions, **how)
        if locator is not None:
            self.locators[locator] = locator_text([at], key)
        return authority

    def authority(self, key, folder, name, at=None):
        """An authority below another, whose certificates are issued by `Authority.certify`."""
        return Authority(self, key, at or HOST + b"ta/" + name + b".cer", folder, name)

    def bundle(self):
        rows = lambda tag, pairs: seq(*(seq(tlv(tag, a), tlv(4, b)) for a, b in sorted(pairs.items())))
        verdicts = seq(*(seq(*(tlv(4, digest) for digest in row)) for row in sorted(self.verdicts)))
        moment, depth = tlv(0x18, self.moment), integer(self.depth)
        version = integer(0 if self.relaxed is None else 1)
        flag = b"" if self.relaxed is None else tlv(1, b"\xff" if self.relaxed else b"\0")
        return seq(version, moment, depth, flag, rows(0x13, self.locators), rows(0x16, self.objects), verdicts)


def locator_text(uris, key, end=b"\n"):
    """A trust anchor locator (RFC 8630 2.2)."""
    return b"".join(uri + end for uri in uris) + end + base64.b64encode(encoded(key)) + end


class Authority:
    """An authority, and what it publishes."""

    def __init__(self, world, key, at, folder, name):
        self.world, self.key, self.at, self.folder, self.name = world, key, at, folder, name
        self.manifest, self.crl = folder + name + b".mft", folder + name + b".crl"
        self.files, self.revoked, self.crl_serial = {}, [], 1

    def access(self):
        return access((5, self.folder), (10, self.manifest))

    def below(self, key, is_ca):
        """The extensions of a certificate that it issues, but those of access, policy and resources."""
        return [
            *([basic()] if is_ca else []),
            self.world.subject_key(key),
            self.world.authority_key(self.key),
            usage(is_ca),
            crl_point(self.crl),
            issuer_at(self.at),
        ]

    def certify(self, file, child, claims, trims=False, **how):
        """A file with a certificate of another authority."""
        extensions = [*self.below(child.key, True), child.access(), policies(trims), *claims_of(claims, trims)]
        self.files[file] = self.world.cert(child.key, self.key, extensions, **how)

    def signed(self, kind, content, file, claims, trims=False, key=None, signing_time=None, more=(), **how):
        """A signed object with a certificate of its own."""
        key = self.world.number() if key is None else key
        content = self.world.altered(content)
        extensions = [
            *self.below(key, False),
            access((11, self.folder + file)),
            policies(trims),
            *claims_of(claims, trims),
            *more,
        ]
        cert = self.world.cert(key, self.key, extensions, **how)
        attributes = [
            seq(oid("1.2.840.113549.1.9.3"), tlv(0x31, oid(kind))),
            seq(oid("1.2.840.113549.1.9.4"), tlv(0x31, tlv(4, self.world.digests.sha256(content)))),
        ]
        if signing_time:
            attributes.append(seq(oid("1.2.840.113549.1.9.5"), tlv(0x31, time(signing_time))))
        message = self.world.altered(tlv(0x31, *attributes))
        signature = self.world.sign(key, message)
        sid = tlv(0x80, self.world.identifier(key))
        # the attributes are signed as a SET, and stand there as [0] (RFC 5652 5.4)
        signer = seq(integer(3), sid, SHA256, b"\xa0" + message[1:], RSA, tlv(4, signature))
        parts = (seq(oid(kind), tlv(0xA0, tlv(4, content))), tlv(0xA0, cert), tlv(0x31, signer))
        data = seq(integer(3), tlv(0x31, SHA256), *parts)
        return self.world.spelled(seq(oid("1.2.840.113549.1.7.2"), tlv(0xA0, data)))

    def add_roa(self, file, content, claims, **how):
        self.files[file] = self.signed(ROA, content, file, claims, **how)

    def add_aspa(self, file, content, claims, **how):
        self.files[file] = self.signed(ASPA, content, file, claims, **how)

    def list_of_revoked(self, updates=(FIRST, LAST), key=None, authority_key=None):
        world = self.world
        entries = seq(*(seq(integer(serial), time(FIRST)) for serial in self.revoked)) if self.revoked else b""
        extensions = seq(world.authority_key(authority_key or self.key), extension("2.5.29.20", integer(1)))
        parts = (world.name(self.key), *map(time, updates), entries, tlv(0xA0, extensions))
        tbs = world.altered(seq(integer(1), ALGORITHM, *parts))
        return seq(tbs, ALGORITHM, bits(world.sign(key or self.key, tbs)))

    def publish(self, updates=(FIRST, LAST), crl=None, claims=INHERITS, listed=(), **how):
        """Adds the revocation list and the manifest, and puts all files in the world; `listed` are further entries."""
        self.files[self.name + b".crl"] = self.list_of_revoked() if crl is None else crl
        hashes = [(name, self.world.digests.sha256(octets)) for name, octets in sorted(self.files.items())]
        content = manifest(1, updates, [*hashes, *listed])
        made = self.signed(MANIFEST, content, self.name + b".mft", claims, **how)
        self.world.objects |= {self.folder + name: octets for name, octets in self.files.items()}
        self.world.objects[self.manifest] = made
