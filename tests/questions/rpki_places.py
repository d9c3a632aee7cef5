#!/usr/bin/env python3
"""Questions about publication points, validated objects and written contents, for tests/questions/validator.py.

    rpki_places.py PROGRAM   asks all of them; validator.py asks some hundred of each topic, chosen so that each branch
                             has one

What stands at publication points comes of a second reading of the rules (rpki_points.py), what is said of validated objects of
the defects that they are made with (validator_objects.py), and what is written of contents of the writers below.
"""

import hashlib
import pathlib
import sys

sys.dont_write_bytecode = True
sys.path.insert(0, str(pathlib.Path(__file__).resolve().parents[1] / "lib"))

import asking  # noqa: E402
import rpki_points  # noqa: E402
import rpki_repositories as world  # noqa: E402
import validator_objects  # noqa: E402
from rpki_repositories import bits, integer, oid, tlv  # noqa: E402
from validator_asked import Questions  # noqa: E402

NUMBER = 2**32 - 1


# Contents (RFC 9582 4, RFC 9286 4.2), and how each mode writes them. A value is octets, or its members.


def written(value, is_cer):
    """In CER constructed values are of indefinite length (X.690 9.1), in DER, and here in BER, of definite (10.1)."""
    if isinstance(value, bytes):
        return value
    content = b"".join(written(member, is_cer) for member in value)
    return b"\x30\x80" + content + b"\0\0" if is_cer else tlv(0x30, content)


def roa(asn, **families):
    """By family the prefixes, each with a greatest length or None."""
    def address(prefix, most):
        return [world.block(prefix)] if most is None else [world.block(prefix), integer(most)]

    listed = [[tlv(4, world.FAMILIES[kind]), [address(*row) for row in rows]] for kind, rows in sorted(families.items())]
    return [integer(asn), listed]


def manifest(number, updates, files):
    listed = [[tlv(0x16, name), bits(digest)] for name, digest in files]
    return [integer(number), *(tlv(0x18, text) for text in updates), oid("2.16.840.1.101.3.4.2.1"), listed]


def roas():
    v4, v6 = ("192.0.2.0/24", None), ("2001:db8::/32", None)
    for asn in (0, 1, 127, 128, 255, 256, 64496, 2**31, NUMBER):
        yield roa(asn, ipv4=[v4])
    for prefix, mosts in (
        ("0.0.0.0/0", (0, 1, 32)),
        ("10.0.0.0/7", (7, 8)),
        ("10.1.2.3/32", (32,)),
        ("::/0", (0, 128)),
        ("2001:db8::/33", (33, 64, 127)),
    ):
        for most in (None, *mosts):
            yield roa(64496, **{"ipv6" if ":" in prefix else "ipv4": [(prefix, most)]})
    yield roa(64496, ipv4=[v4], ipv6=[v6])
    yield roa(64496, ipv6=[v6, ("2001:db8::/48", 48)])
    yield roa(64496, ipv4=[v4, v4, ("192.0.2.128/25", None)])
    for count in (9, 10, 20, 300):
        yield roa(64496, ipv4=[(f"10.{at >> 8}.{at & 255}.0/24", 24 + at % 9) for at in range(count)])


def manifests():
    updates, file = (world.FIRST, world.LAST), (b"a.roa", hashlib.sha256(b"a").digest())
    for number in (0, 1, 127, 128, 255, 256, 2**64, 2**159 - 1, 2**159, 2**160 - 1):
        yield manifest(number, updates, [file])
    for pair in (
        (b"00000101000000Z", b"00000101000001Z"),
        (b"20491231235959Z", b"20500101000000Z"),
        (b"20240229235959Z", b"99991231235959Z"),
    ):
        yield manifest(7, pair, [file])
    yield manifest(7, updates, [])
    yield manifest(7, updates, [(b"A-_0.CER".lower(), bytes(32)), (b"Z" * 120 + b".mft", b"\xff" * 32)])
    for count in (2, 3, 300):
        yield manifest(7, updates, [(b"%d.crl" % at, hashlib.sha256(b"%d" % at).digest()) for at in range(count)])


def contents(ask):
    for kind, values in (("roa", roas()), ("manifest", manifests())):
        for value in values:
            octets = written(value, False)
            cer = rpki_points.shown(written(value, True))
            ask(f"true {rpki_points.shown(octets)} {rpki_points.shown(octets)} {cer}", "written", kind, octets.hex())
            ask("unreadable", "written", kind, octets[:-1].hex())


def files(ask):
    """Listed files: what is written of each, and whether octets have its hash."""
    whole = hashlib.sha256(b"any file").digest()
    for name, hashed in (("a.roa", whole), ("Z" * 120 + ".mft", whole), ("no name", whole[:31]), ("", whole + b"\0"), ("a.cer", b"")):
        value = [tlv(0x16, name.encode()), bits(hashed)]
        shown = [rpki_points.shown(written(value, mode)) for mode in (False, False, True)]
        for octets in (b"any file", b"any fil", b""):
            fits = hashlib.sha256(octets).digest() == hashed
            ask(" ".join([*shown, str(fits).lower()]), "file", name, hashed.hex(), octets.hex())


def questions(q, whole=False):
    """Asks some hundred of each topic, or all."""
    rpki_points.points(q.ask, *((2000, None) if whole else ()))
    validator_objects.objects(q.ask, whole)
    contents(q.ask)
    files(q.ask)


def all_questions():
    """All questions beside their answers."""
    q = Questions()
    questions(q, True)
    return q.rows


if __name__ == "__main__":
    asking.main(all_questions)
