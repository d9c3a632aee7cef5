"""Questions about certificates that are built, for tests/questions/certificates_roles.py.

What is written is spelled here by X.690 8 and 10 from the fields, line by line as RFC 5280 4.1 and 4.2, RFC 6487 4 and RFC 3779
have them; a signature is what is signed.
"""

import hashlib
import ipaddress
import random

from certificates_parts import ECDSA, RSA, SIGN, TEXTS
from rpki_repositories import NULL, bits, integer, oid, seq, tlv

rng = random.Random(6487)


TRUE = tlv(1, b"\xff")


def name(text):
    return seq(tlv(0x31, seq(oid("2.5.4.3"), tlv(19, text.encode()))))


def rsa_key(octets):
    return seq(RSA, bits(octets))


def ec_key(octets):
    return seq(ECDSA, bits(octets))


def generalized(parts):
    year, *others = parts
    return f"{year:04}" + "".join(f"{part:02}" for part in others) + "Z"


def moment(parts):
    """UTCTime from 1950 through 2049, and GeneralizedTime before and after (RFC 5280 4.1.2.5)."""
    text = generalized(parts).encode()
    return tlv(23, text[2:]) if 1950 <= parts[0] <= 2049 else tlv(24, text)


def extension(kind, critical, value):
    return seq(oid(kind), TRUE if critical else b"", tlv(4, value))


def uri(text):
    return tlv(0x86, text.encode())


def location(method, text):
    return seq(oid(method), uri(text))


def bit_string(number, length):
    """The first bits of an address, the last octet filled with zeros (RFC 3779 2.1.1)."""
    unused = -length % 8
    return tlv(3, bytes([unused]) + (number << unused).to_bytes((length + unused) // 8, "big"))


def block(low, high, width):
    """A prefix where the addresses are those of one, and else a range (RFC 3779 2.2.3.7)."""
    size = high - low + 1
    if size & (size - 1) == 0 and low % size == 0:
        length = width - size.bit_length() + 1
        return bit_string(low >> (width - length), length)
    zeros = (low & -low).bit_length() - 1 if low else width
    ones = (~high & (high + 1)).bit_length() - 1
    zeros, ones = min(zeros, width), min(ones, width)
    return seq(bit_string(low >> zeros, width - zeros), bit_string(high >> ones, width - ones))


def family(number, blocks, width):
    if blocks is None:
        return b""
    said = NULL if blocks == "inherit" else seq(*(block(low, high, width) for low, high in blocks))
    return seq(tlv(4, number.to_bytes(2, "big")), said)


def asns(blocks):
    if blocks == "inherit":
        said = NULL
    else:
        said = seq(*(integer(low) if low == high else seq(integer(low), integer(high)) for low, high in blocks))
    return seq(tlv(0xA0, said))


PE = "1.3.6.1.5.5.7.1."
AD = "1.3.6.1.5.5.7.48."


def extensions(fields):
    """In the order of the profile (RFC 6487 4.8)."""
    found, get = [], fields.get
    trim = fields["overclaim"] == "trim"
    if "ca" in fields:
        found.append(extension("2.5.29.19", True, seq(TRUE if fields["ca"] == "true" else b"")))
    found.append(extension("2.5.29.14", False, tlv(4, hashlib.sha1(fields["bits"]).digest())))
    if "authority" in fields:
        found.append(extension("2.5.29.35", False, seq(tlv(0x80, fields["authority"]))))
    found.append(extension("2.5.29.15", True, tlv(3, b"\x01\x06" if fields["usage"] == "ca" else b"\x07\x80")))
    if "router" in fields:
        found.append(extension("2.5.29.37", False, seq(oid("1.3.6.1.5.5.7.3.30"))))
    if "crl" in fields:
        found.append(extension("2.5.29.31", False, seq(seq(tlv(0xA0, tlv(0xA0, uri(fields["crl"])))))))
    if "aia" in fields:
        found.append(extension(PE + "1", False, seq(location(AD + "2", fields["aia"]))))
    methods = (("repository", "5"), ("manifest", "10"), ("object", "11"), ("notify", "13"))
    access = [location(AD + number, fields[key]) for key, number in methods if key in fields]
    if access:
        found.append(extension(PE + "11", False, seq(*access)))
    found.append(extension("2.5.29.32", True, seq(seq(oid("1.3.6.1.5.5.7.14." + ("3" if trim else "2"))))))
    addresses = family(1, get("v4"), 32) + family(2, get("v6"), 128)
    if addresses:
        found.append(extension(PE + ("28" if trim else "7"), True, seq(addresses)))
    if get("asn") is not None:
        found.append(extension(PE + ("29" if trim else "8"), True, asns(fields["asn"])))
    return found


def tbs(fields):
    key = fields["key"](fields["bits"])
    subject = fields.get("subject") or hashlib.sha1(fields["bits"]).hexdigest()
    return seq(
        tlv(0xA0, integer(2)),
        integer(fields["serial"]),
        SIGN,
        name(fields["issuer"]),
        seq(moment(fields["from"]), moment(fields["to"])),
        name(subject),
        key,
        tlv(0xA3, seq(*extensions(fields))),
    )


def text_of(blocks, width):
    if blocks == "inherit":
        return blocks
    if width is None:
        return ", ".join(f"AS{low}" if low == high else f"AS{low}-AS{high}" for low, high in blocks)
    make = ipaddress.IPv4Address if width == 32 else ipaddress.IPv6Address
    return ", ".join(f"{make(low)}-{make(high)}" for low, high in blocks)


def first(fields):
    """The fields that each certificate has."""
    subject = name(fields["subject"]).hex() if "subject" in fields else "-"
    yield fields["serial"].to_bytes(20, "big").hex()
    yield name(fields["issuer"]).hex()
    yield f"{generalized(fields['from'])} {generalized(fields['to'])}"
    yield subject
    yield fields["key"](fields["bits"]).hex()
    yield fields["usage"]
    yield fields["overclaim"]


def others(fields, way="set", sets_all=False):
    """The fields that may be absent; those that are, too, if all are set."""
    absent = "-" if sets_all else None
    found = {"ca": fields.get("ca", absent), "purposes": "router" if "router" in fields else absent}
    found["authority"] = fields["authority"].hex() if "authority" in fields else absent
    for key in ("crl", "aia", "repository", "manifest", "object", "notify"):
        found[key] = fields.get(key, absent)
    for key, width in (("v4", 32), ("v6", 128), ("asn", None)):
        listed = fields.get(key)
        found[key] = absent if listed is None else listed if listed == "inherit" else f"{way} {text_of(listed, width)}"
    return [f"{key}={value}" for key, value in found.items() if value is not None]


def words(fields, way="set"):
    return [*first(fields), *others(fields, way)]


def over(fields):
    """All fields, set one after the other; the subject's name, which is there."""
    keys = ("serial", "issuer", "validity", "subject", "key", "usage", "overclaim")
    return [*(f"{key}={value}" for key, value in zip(keys, first(fields)) if value != "-"), *others(fields, sets_all=True)]


ALL4, ALL6, ALLAS = [(0, 2**32 - 1)], [(0, 2**128 - 1)], [(0, 2**32 - 1)]

# The anchor: serial 12, the policy that trims, all numbers.
ANCHOR = {
    "serial": 12,
    "issuer": hashlib.sha1(bytes(range(1, 141))).hexdigest(),
    "from": (2026, 1, 1, 0, 0, 0),
    "to": (2026, 1, 8, 0, 0, 0),
    "key": rsa_key,
    "bits": bytes(range(1, 141)),
    "usage": "ca",
    "overclaim": "trim",
    "ca": "true",
    "repository": "rsync://example.com/m/p",
    "manifest": "rsync://example.com/m/p/mft.mft",
    "v4": ALL4,
    "v6": ALL6,
    "asn": ALLAS,
}

# A router's certificate, of which each field is another.
ROUTER = {
    "serial": 13,
    "issuer": "another issuer",
    "subject": "ROUTER-0000FBF0",
    "from": (2025, 2, 3, 4, 5, 6),
    "to": (2027, 2, 3, 4, 5, 6),
    "key": ec_key,
    "bits": b"\x04" + bytes(range(64)),
    "usage": "ee",
    "overclaim": "refuse",
    "router": "yes",
    "authority": bytes(range(1, 21)),
    "crl": "rsync://example.com/m/p/router.crl",
    "aia": "rsync://example.com/m/authority.cer",
    "object": "rsync://example.com/m/p/router.cer",
    "notify": "https://example.com/router.xml",
    "asn": [(64496, 64496)],
}

OTHERS = {
    "serial": (0, 1, 127, 128, 255, 256, 2**128, 2**159, 2**160 - 1),
    "from": ((1949, 12, 31, 23, 59, 59), (1950, 1, 1, 0, 0, 0), (1999, 12, 31, 0, 0, 0), (2000, 2, 29, 1, 2, 3), (0, 1, 1, 0, 0, 0)),
    "to": ((2049, 12, 31, 23, 59, 59), (2050, 1, 1, 0, 0, 0), (9999, 12, 31, 23, 59, 59)),
    "key": (ec_key,),
    "bits": (b"", b"\xff", bytes(300)),
    "issuer": ("A", "an issuer", "X" * 200),
    "subject": ("S", "a subject", "Y" * 130),
    "usage": ("ee",),
    "overclaim": ("refuse",),
    "ca": ("false", None),
    "authority": (bytes(20), bytes(range(20))),
    "router": ("yes",),
    "crl": ("rsync://example.com/m/p/a.crl", "rsync://h/m/" + "c" * 200),
    "aia": ("rsync://example.com/m/a.cer",),
    "repository": (None, "rsync://h/m/"),
    "manifest": (None, "rsync://h/m/" + "d" * 120),
    "object": ("rsync://example.com/m/p/a.roa",),
    "notify": ("https://example.com/notification.xml",),
    "v4": (None, "inherit", [], [(0x0A000000, 0x0AFFFFFF)], [(0x0A000000, 0x0A000002)], [(1, 1), (3, 6), (2**32 - 1, 2**32 - 1)]),
    "v6": (None, "inherit", [], [(0x20010DB8 << 96, (0x20010DB9 << 96) - 1)], [(1, 2**127)], [(0, 0), (2**128 - 2, 2**128 - 1)]),
    "asn": (None, "inherit", [], [(64496, 64511)], [(0, 0), (2, 2**31), (2**32 - 1, 2**32 - 1)]),
}


def changed(fields, key, value):
    made = dict(fields)
    made.pop(key, None)
    if value is not None:
        made[key] = value
    return made


def cases():
    """Fields, and which one alone is another than the anchor's, if it is one."""
    yield ANCHOR, None
    for key, values in OTHERS.items():
        for value in values:
            yield changed(ANCHOR, key, value), key
    none = ANCHOR
    for key in ("v4", "v6", "asn", "repository", "manifest", "ca"):
        none = changed(none, key, None)
        yield none, None
    for _ in range(60):
        made = ANCHOR
        for key, values in OTHERS.items():
            if rng.random() < 0.5:
                made = changed(made, key, rng.choice(values))
        yield made, None


def certificate(message):
    return seq(message, SIGN, bits(message))


def validated(q):
    """The anchor as it is written, read and validated (RFC 6487 7.2, RFC 8630 2.3)."""
    everything = "holds [0.0.0.0/0] [::/0] [AS0-AS4294967295] t 1"
    inside = changed(ANCHOR, "manifest", ANCHOR["repository"] + "/q/mft.mft")
    beside = changed(ANCHOR, "manifest", "rsync://example.com/m/q/mft.mft")
    rows = [
        (ANCHOR, "20260101000000Z", everything),
        (ANCHOR, "20260108000000Z", everything),
        (ANCHOR, "20251231235959Z", "not yet valid 12 0"),
        (ANCHOR, "20260108000001Z", "expired 12 0"),
        (inside, "20260101000000Z", f"{TEXTS['ManifestNotChild']} 12 0"),
        (beside, "20260101000000Z", f"{TEXTS['ManifestNotChild']} 12 0"),
        (changed(ANCHOR, "ca", "false"), "20260101000000Z", f"{TEXTS['NotCa']} 12 0"),
        (changed(ANCHOR, "authority", hashlib.sha1(ANCHOR["bits"]).digest()), "20260101000000Z", everything),
        (changed(ANCHOR, "authority", bytes(20)), "20260101000000Z", f"{TEXTS['AuthorityKeyMismatch']} 12 0"),
        (changed(ANCHOR, "v4", "inherit"), "20260101000000Z", "inherited IPv4 addresses 12 0"),
    ]
    for fields, moment, answer in rows:
        q.ask(answer, "anchor", "validate_ta_at", "strict", moment, "good", certificate(tbs(fields)).hex())


def built(q):
    """Asks all questions."""
    for fields, key in cases():
        asked, message = words(fields), "x" + tbs(fields).hex()
        some = any(fields.get(key) is not None for key in ("v4", "v6", "asn"))
        for kind in ("der", "copy", "ber"):
            q.ask(message, "built", kind, *asked)
        q.ask("no form in CER", "built", "cer", *asked)
        if key in ("v4", "v6", "asn") and isinstance(fields.get(key), list):
            for way in ("pushed", "listed"):
                q.ask(message, "built", "der", *words(fields, way))
        # Set over fields that are all others, and over these by the others.
        if "subject" in fields:
            q.ask(message, "built", "der", *words(ROUTER), *over(fields))
            q.ask("x" + tbs(ROUTER).hex(), "built", "der", *asked, *over(ROUTER))
        q.ask("x" + certificate(tbs(fields)).hex() + (" true" if some else " unread"), "built", "sign", *asked)
    asked = words(ANCHOR)
    q.ask("key not found", "built", "refuse", *asked)
    # A name that is kept in BER has no DER that is known: a SEQUENCE of indefinite length.
    issuer = name(ANCHOR["issuer"])
    kept = "issuer-ber=" + (b"\x30\x80" + issuer[2:] + b"\0\0").hex()
    q.ask("no form in CER", "built", "der", *asked, kept)
    q.ask("a value that is too long", "built", "sign", *asked, kept)
    validated(q)
