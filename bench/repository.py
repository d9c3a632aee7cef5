#!/usr/bin/env python3
"""Makes a repository of the RPKI: real certificates, revocation lists, manifests, ROAs and ASPAs with RSA signatures.

    repository.py OUT [--authorities N] [--origins N] [--customers N] [--keys N] [--stand-ins] [--bundle]

OUT gets what a validator's cache of the layout `plain` has (rsync/HOST/..), a folder `tals`, and `lines`: what
`rpki_check check` prints of a bundle made of them at the moment 20250101000000Z. A trust anchor stands over N
authorities, each with its own publication point, N/authorities ROAs and as many ASPAs. Keys are drawn from a pool of
--keys (a key takes some 50 ms to make), so that 100,000 objects take minutes and not hours; the certificates of signed
objects share those of the pool.

With --stand-ins keys and signatures are octets of the sizes that RSA's have, and no arithmetic is done: so nobody can
check them, and 100,000 objects take half a minute. With --bundle OUT gets `bundle` and `lines` alone: a bundle with a
verdict for each signature.

The DER is written here, and nothing of the repository's crates is used: so what is made judges them.
"""

import argparse
import base64
import hashlib
import ipaddress
import os
import random
import sys

MOMENT = "20250101000000Z"
NOT_BEFORE, NOT_AFTER = "20240101000000Z", "20260101000000Z"
HOST = "rpki.example"
# The AS numbers of authorities and the 16 bits of their addresses follow each other from here on.
FIRST_AS = 100_000


def der(tag, *parts):
    """A value in DER, of that identifier octet."""
    content = b"".join(parts)
    size = len(content)
    if size < 0x80:
        return bytes([tag, size]) + content
    length = size.to_bytes((size.bit_length() + 7) // 8, "big")
    return bytes([tag, 0x80 + len(length)]) + length + content


def sequence(*parts):
    return der(0x30, *parts)


def integer(value):
    return der(0x02, value.to_bytes(value.bit_length() // 8 + 1, "big"))


def oid(text):
    first, second, *others = (int(part) for part in text.split("."))
    octets = []
    for number in [40 * first + second, *others]:
        groups = [number & 0x7F]
        while number := number >> 7:
            groups.append(number & 0x7F | 0x80)
        octets += reversed(groups)
    return der(0x06, bytes(octets))


def bits(octets, unused=0):
    return der(0x03, bytes([unused]), octets)


def time(text):
    """A time as a certificate has it: UTCTime up to 2049 (RFC 5280 4.1.2.5)."""
    return der(0x17, text[2:].encode()) if text < "2050" else der(0x18, text.encode())


SHA256_RSA = sequence(oid("1.2.840.113549.1.1.11"), der(0x05))
RSA = sequence(oid("1.2.840.113549.1.1.1"), der(0x05))
SHA256 = sequence(oid("2.16.840.1.101.3.4.2.1"))


class StandIn:
    """Octets in a key's place, as many as an RSA key of 2048 bits has, with what they are encoded as and identified by."""

    def __init__(self, verdicts):
        self.verdicts = verdicts
        self.octets = self.make()
        self.encoded = sequence(RSA, bits(self.octets))
        self.identifier = hashlib.sha1(self.octets).digest()
        self.digest = hashlib.sha256(self.encoded).digest()

    def make(self):
        return os.urandom(270)

    def signature(self, message):
        return hashlib.shake_256(self.octets + message).digest(256)

    def sign(self, message):
        signature = self.signature(message)
        self.verdicts.append(self.digest + hashlib.sha256(message).digest() + hashlib.sha256(signature).digest())
        return signature

    def name(self):
        """The name made of the identifier: one commonName."""
        text = der(0x13, self.identifier.hex().encode())
        return sequence(der(0x31, sequence(oid("2.5.4.3"), text)))


class Key(StandIn):
    """An RSA key pair, which signs."""

    def make(self):
        from cryptography.hazmat.primitives.asymmetric import rsa
        from cryptography.hazmat.primitives.serialization import Encoding, PublicFormat

        self.pair = rsa.generate_private_key(public_exponent=65537, key_size=2048)
        return self.pair.public_key().public_bytes(Encoding.DER, PublicFormat.PKCS1)

    def signature(self, message):
        from cryptography.hazmat.primitives import hashes
        from cryptography.hazmat.primitives.asymmetric import padding

        return self.pair.sign(message, padding.PKCS1v15(), hashes.SHA256())


def extension(kind, value, critical=False):
    return sequence(oid(kind), der(0x01, b"\xff") if critical else b"", der(0x04, value))


def uri(text):
    return der(0x86, text.encode())


def address_bits(network):
    length = network.prefixlen
    size = (length + 7) // 8
    return bits(network.network_address.packed[:size], 8 * size - length)


FAMILIES = {4: der(0x04, b"\x00\x01"), 6: der(0x04, b"\x00\x02")}


class Held:
    """What a certificate lists: prefixes and AS numbers, or that it inherits them (of addresses, IPv4 ones)."""

    def __init__(self, networks=(), numbers=(), inherits=False):
        self.networks, self.numbers, self.inherits = networks, numbers, inherits

    def extensions(self):
        if self.inherits:
            yield extension("1.3.6.1.5.5.7.1.7", sequence(sequence(FAMILIES[4], der(0x05))), True)
            yield extension("1.3.6.1.5.5.7.1.8", sequence(der(0xA0, der(0x05))), True)
            return
        families = [
            sequence(family, sequence(*(address_bits(one) for one in self.networks if one.version == version)))
            for version, family in FAMILIES.items()
            if any(one.version == version for one in self.networks)
        ]
        if families:
            yield extension("1.3.6.1.5.5.7.1.7", sequence(*families), True)
        if self.numbers:
            ranges = (sequence(integer(first), integer(last)) if first < last else integer(first)
                      for first, last in self.numbers)
            yield extension("1.3.6.1.5.5.7.1.8", sequence(der(0xA0, sequence(*ranges))), True)


class Authority:
    """An authority: its key, its folder, and what it publishes."""

    def __init__(self, name, key, held, parent=None):
        self.name, self.key, self.held, self.parent = name, key, held, parent
        self.folder = f"rsync://{HOST}/repository/{name}/"
        self.at = f"rsync://{HOST}/repository/{parent.name + '/' if parent else ''}{name}.cer"
        self.files, self.serial, self.revoked, self.number = {}, 0, [], 1

    def next_serial(self):
        self.serial += 1
        return self.serial

    def issue(self, key, extensions):
        """A certificate that this authority signs (RFC 6487 4)."""
        tbs = sequence(
            der(0xA0, integer(2)),
            integer(self.next_serial()),
            SHA256_RSA,
            self.key.name(),
            sequence(time(NOT_BEFORE), time(NOT_AFTER)),
            key.name(),
            key.encoded,
            der(0xA3, sequence(*extensions)),
        )
        return sequence(tbs, SHA256_RSA, bits(self.key.sign(tbs)))

    def below(self, key, others, held):
        """The extensions of every certificate that isn't a trust anchor's."""
        points = sequence(sequence(der(0xA0, der(0xA0, uri(self.folder + self.name + ".crl")))))
        access = sequence(sequence(oid("1.3.6.1.5.5.7.48.2"), uri(self.at)))
        return [
            extension("2.5.29.14", der(0x04, key.identifier)),
            extension("2.5.29.35", sequence(der(0x80, self.key.identifier))),
            extension("2.5.29.31", points),
            extension("1.3.6.1.5.5.7.1.1", access),
            POLICIES,
            *others,
            *held.extensions(),
        ]

    def access(self):
        """Where the authority publishes (RFC 6487 4.8.8.1)."""
        places = (("5", self.folder), ("10", self.folder + self.name + ".mft"))
        return extension(
            "1.3.6.1.5.5.7.1.11",
            sequence(*(sequence(oid("1.3.6.1.5.5.7.48." + kind), uri(place)) for kind, place in places)),
        )

    def own_cert(self):
        """Its certificate: its own where it is the trust anchor, else signed by the parent."""
        others = [extension("2.5.29.19", sequence(der(0x01, b"\xff")), True), CA_USAGE, self.access()]
        if self.parent:
            return self.parent.issue(self.key, self.parent.below(self.key, others, self.held))
        own = [extension("2.5.29.14", der(0x04, self.key.identifier)), POLICIES]
        return self.issue(self.key, [*own, *others, *self.held.extensions()])

    def sign_object(self, kind, content, file, key, held):
        """A signed object with a certificate of that key (RFC 5652 5, RFC 6488)."""
        place = sequence(sequence(oid("1.3.6.1.5.5.7.48.11"), uri(self.folder + file)))
        others = [EE_USAGE, extension("1.3.6.1.5.5.7.1.11", place)]
        cert = self.issue(key, self.below(key, others, held))
        attributes = (
            sequence(oid("1.2.840.113549.1.9.3"), der(0x31, oid(kind))),
            sequence(oid("1.2.840.113549.1.9.4"), der(0x31, der(0x04, hashlib.sha256(content).digest()))),
            sequence(oid("1.2.840.113549.1.9.5"), der(0x31, time(NOT_BEFORE))),
        )
        signer = sequence(
            integer(3),
            der(0x80, key.identifier),
            SHA256,
            der(0xA0, *attributes),
            RSA,
            der(0x04, key.sign(der(0x31, *attributes))),
        )
        data = sequence(
            integer(3),
            der(0x31, SHA256),
            sequence(oid(kind), der(0xA0, der(0x04, content))),
            der(0xA0, cert),
            der(0x31, signer),
        )
        return sequence(oid("1.2.840.113549.1.7.2"), der(0xA0, data))

    def add_origin(self, file, key, asn, network, greatest=None):
        """A ROA of one prefix (RFC 9582 4)."""
        most = integer(greatest) if greatest else b""
        family = sequence(FAMILIES[network.version], sequence(sequence(address_bits(network), most)))
        content = sequence(integer(asn), sequence(family))
        self.files[file] = self.sign_object("1.2.840.113549.1.9.16.1.24", content, file, key, Held([network]))

    def add_customer(self, file, key, customer, providers):
        """An attestation of a customer's providers."""
        content = sequence(der(0xA0, integer(1)), integer(customer), sequence(*map(integer, providers)))
        held = Held(numbers=[(customer, customer)])
        self.files[file] = self.sign_object("1.2.840.113549.1.9.16.1.49", content, file, key, held)

    def publish(self, key):
        """Adds the revocation list and the manifest, and answers all files by their URIs."""
        names = [extension("2.5.29.35", sequence(der(0x80, self.key.identifier))), extension("2.5.29.20", integer(1))]
        times = time(NOT_BEFORE) + time(NOT_AFTER)
        entries = (sequence(integer(serial), time(NOT_BEFORE)) for serial in self.revoked)
        revoked = sequence(*entries) if self.revoked else b""
        tbs = sequence(integer(1), SHA256_RSA, self.key.name(), times, revoked, der(0xA0, sequence(*names)))
        self.files[self.name + ".crl"] = sequence(tbs, SHA256_RSA, bits(self.key.sign(tbs)))
        listed = (
            sequence(der(0x16, file.encode()), bits(hashlib.sha256(octets).digest()))
            for file, octets in sorted(self.files.items())
        )
        times = (der(0x18, text.encode()) for text in (NOT_BEFORE, NOT_AFTER))
        content = sequence(integer(self.number), *times, oid("2.16.840.1.101.3.4.2.1"), sequence(*listed))
        file = self.name + ".mft"
        manifest = self.sign_object("1.2.840.113549.1.9.16.1.26", content, file, key, Held(inherits=True))
        return {self.folder + name: octets for name, octets in [*self.files.items(), (file, manifest)]}


POLICIES = extension("2.5.29.32", sequence(sequence(oid("1.3.6.1.5.5.7.14.2"))), True)
CA_USAGE = extension("2.5.29.15", der(0x03, b"\x01\x06"), True)
EE_USAGE = extension("2.5.29.15", der(0x03, b"\x07\x80"), True)


class Repository:
    """All objects by URI, the locator's text, and the lines that they mean."""

    def __init__(self, authorities, origins, customers, keys, kind=Key):
        self.kind, self.verdicts = kind, []
        pool = [self.key() for _ in range(keys)]
        self.pick = random.Random(1).choice
        self.pool = pool
        last = FIRST_AS + authorities * (customers + 1)
        top = Held([ipaddress.ip_network("10.0.0.0/8")], [(FIRST_AS, last)])
        self.anchor = Authority("ta", self.key(), top)
        self.objects, self.origins, self.customers, self.below = {}, [], [], []
        # (no key may stand twice on a chain, so authorities have keys of their own)
        for number in range(authorities):
            self.add_authority(number, origins, customers)
        self.objects[self.anchor.at] = self.anchor.own_cert()
        self.objects |= self.anchor.publish(self.pick(pool))

    def key(self):
        return self.kind(self.verdicts)

    def add_authority(self, number, origins, customers):
        name = f"a{number}"
        start = int(ipaddress.ip_address("10.0.0.0")) + (number << 14)
        network = ipaddress.ip_network((start, 18))
        first = FIRST_AS + number * (customers + 1)
        held = Held([network], [(first, first + customers)])
        authority = Authority(name, self.key(), held, self.anchor)
        self.below.append(authority)
        self.anchor.files[name + ".cer"] = authority.own_cert()
        for count in range(origins):
            prefix = ipaddress.ip_network((start + (count << 4) % (1 << 14), 28))
            greatest = None if count % 2 else 30
            authority.add_origin(f"o{count}.roa", self.pick(self.pool), first, prefix, greatest)
            self.origins.append((int(prefix.network_address), 28, greatest or 28, first))
        for count in range(customers):
            providers = [first + customers + 1 + count, first + customers + 2 + count]
            authority.add_customer(f"c{count}.asa", self.pick(self.pool), first + count, providers)
            self.customers.append((first + count, providers))
        self.objects |= authority.publish(self.pick(self.pool))

    def locator(self):
        """The text of the trust anchor locator (RFC 8630 2.2)."""
        text = base64.encodebytes(self.anchor.key.encoded).decode()
        return f"{self.anchor.at}\n\n{text}"

    def bundle(self):
        """The octets of the bundle, with a verdict for each signature."""
        locator = sequence(der(0x13, b"example"), der(0x04, self.locator().encode()))
        objects = (sequence(der(0x16, uri.encode()), der(0x04, octets)) for uri, octets in sorted(self.objects.items()))
        verdicts = (
            sequence(*(der(0x04, row[at : at + 32]) for at in (0, 32, 64))) for row in sorted(set(self.verdicts))
        )
        moment = der(0x18, MOMENT.encode())
        return sequence(integer(0), moment, integer(32), sequence(locator), sequence(*objects), sequence(*verdicts))

    def lines(self):
        """What is printed of the repository."""
        origins = (
            f"roa AS{asn} {ipaddress.ip_address(address)}/{length} {greatest}\n"
            for address, length, greatest, asn in sorted(set(self.origins))
        )
        customers = (
            f"aspa AS{customer}{''.join(f' AS{provider}' for provider in providers)}\n"
            for customer, providers in sorted(self.customers)
        )
        return "".join([*origins, *customers])


def write(path, octets):
    os.makedirs(os.path.dirname(path), exist_ok=True)
    with open(path, "wb") as file:
        file.write(octets)


def main():
    parser = argparse.ArgumentParser(description=__doc__, formatter_class=argparse.RawDescriptionHelpFormatter)
    parser.add_argument("out", metavar="OUT")
    parser.add_argument("--authorities", type=int, default=10)
    parser.add_argument("--origins", type=int, default=10, help="ROAs of each authority, at most 1,024")
    parser.add_argument("--customers", type=int, default=2, help="ASPAs of each authority")
    parser.add_argument("--keys", type=int, default=16, help="keys of signed objects' certificates")
    parser.add_argument("--stand-ins", action="store_true", help="octets in the place of keys and signatures")
    parser.add_argument("--bundle", action="store_true", help="a bundle and its lines alone")
    given = parser.parse_args()
    if not (1 <= given.authorities <= 1024 and 0 <= given.origins <= 1024 and 0 <= given.customers and given.keys > 0):
        parser.error("--authorities is from 1 to 1,024, --origins to 1,024, --keys at least 1")
    kind = StandIn if given.stand_ins else Key
    made = Repository(given.authorities, given.origins, given.customers, given.keys, kind)
    if given.bundle:
        write(os.path.join(given.out, "bundle"), made.bundle())
        write(os.path.join(given.out, "lines"), made.lines().encode())
        print(f"{len(made.objects):,} objects", file=sys.stderr)
        return
    for place, octets in made.objects.items():
        scheme, _, rest = place.partition("://")
        write(os.path.join(given.out, scheme, *rest.split("/")), octets)
    write(os.path.join(given.out, "tals", "example.tal"), made.locator().encode())
    write(os.path.join(given.out, "lines"), made.lines().encode())
    print(f"{len(made.objects):,} objects", file=sys.stderr)


if __name__ == "__main__":
    main()
