"""Resource tagged attestations that are made of certificates, revocation lists and signers, for
tests/questions/objects_rta_valid.py: each of which some parts are others.

The signer is that of tests/lib/rpki_repositories.py: the SHA-256 digest of a key's bits and the message.
"""

import hashlib

import rpki_repositories as world
from objects_rsc import blocks, family
from objects_rta_read import as_part, attestation, ip_part, key_of, made, signer
from rpki_repositories import ALGORITHM, FIRST, HOST, LAST, bits, encoded, integer, key_bits, oid, seq, time, tlv

MAKER = world.World()
EARLY, LATE = b"20231231235959Z", b"20260101000001Z"
# Keys: of trust anchors, of authorities, of those who sign, and of somebody else.
ANCHOR, SECOND_ANCHOR, CA, OTHER_CA, ONE, TWO, SOMEBODY = 1, 2, 3, 4, 11, 12, 99
EMPTY_ALGORITHM = seq(oid("1.2.840.113549.1.1.11"))


# The writer.


def sign(key, message):
    return hashlib.sha256(key_bits(key) + message).digest()


def folder_of(key):
    return HOST + b"%d/" % key


def access_of(key):
    return world.access((5, folder_of(key)), (10, folder_of(key) + b"a.mft"))


def usual_extensions(role, key, issuer, claims, trims):
    """By their names, in the profile's order (RFC 6487 4.8)."""
    is_ca, below = role != "holder", role != "anchor"
    return {
        "basic": world.basic() if is_ca else b"",
        "subject": MAKER.subject_key(key),
        "authority": MAKER.authority_key(issuer),
        "usage": world.usage(is_ca),
        "purposes": b"",
        "crl": world.crl_point(folder_of(issuer) + b"a.crl") if below else b"",
        "aia": world.issuer_at(folder_of(issuer) + b"a.cer") if below else b"",
        "sia": access_of(key) if is_ca else b"",
        "policies": world.policies(trims),
        "resources": b"".join(world.claims_of(claims, trims)),
    }


def certificate(role, key, issuer, claims, serial=None, validity=(FIRST, LAST), signed_by=None, trims=False, **new):
    """A certificate of a holder, an authority or an anchor; parts by their names are others."""
    extensions = usual_extensions(role, key, issuer, claims, trims)
    tbs = seq(
        tlv(0xA0, integer(2)),
        integer(100 + key if serial is None else serial),
        ALGORITHM,
        new.pop("issuer_name", MAKER.name(issuer)),
        seq(*map(time, validity)),
        new.pop("subject_name", MAKER.name(key)),
        new.pop("key_info", encoded(key)),
        tlv(0xA3, seq(*(new.pop(name, usual) for name, usual in extensions.items()))),
    )
    outer = new.pop("outer", ALGORITHM)
    assert not new, new
    return seq(tbs, outer, bits(sign(signed_by or issuer, tbs)))


def revocations(key, revoked=(), updates=(FIRST, LAST), signed_by=None, number=1):
    """A revocation list of the authority with that key."""
    entries = seq(*(seq(integer(serial), time(FIRST)) for serial in revoked)) if revoked else b""
    extensions = seq(MAKER.authority_key(key), world.extension("2.5.29.20", integer(number)))
    tbs = seq(integer(1), ALGORITHM, MAKER.name(key), *map(time, updates), entries, tlv(0xA0, extensions))
    return seq(tbs, ALGORITHM, bits(sign(signed_by or key, tbs)))


def stated_part(claims):
    """What is stated, by kind as claims are."""
    parts = [as_part(*claims["as"])] if "as" in claims else []
    families = [family(kind, *blocks(*claims[name])) for kind, name in ((1, "ipv4"), (2, "ipv6")) if name in claims]
    return seq(*parts, *([ip_part(*families)] if families else []))


class Base:
    """A document: by names its certificates and lists, each by what makes it, who signs, and what is stated. Each call makes one of
    which some parts are others."""

    def __init__(self, certs, lists, signers, stated, *steps):
        self.certs, self.lists, self.signers, self.stated, self.steps = certs, lists, signers, stated, steps

    def content(self, stated=None, keys=None, **_):
        listed = tlv(0x31, *map(key_of, self.signers if keys is None else keys))
        return attestation(keys=listed, resources=stated_part(self.stated if stated is None else stated))

    def made(self, certs={}, lists={}, signers={}, without=(), more_certs=(), more_lists=(), more_signers=(), order=1, **new):
        """Certificates, lists and signers by their names with parts that are others, without some, and with more, in either order."""
        content = new.get("content", self.content(**new))
        made_certs = [certificate(**{**how, **certs.get(name, {})}) for name, how in self.certs.items() if name not in without]
        made_lists = [revocations(**{**how, **lists.get(name, {})}) for name, how in self.lists.items() if name not in without]
        made_signers = [signer(key, content, **signers.get(key, {})) for key in self.signers if key not in without]
        carried = {"certs": [*made_certs, *more_certs], "lists": [*made_lists, *more_lists]}
        carried["signers"] = [*made_signers, *(signer(key, content, **how) for key, how in more_signers)]
        parts = {name: b"".join(found[::order]) for name, found in carried.items()}
        if not carried["lists"]:
            parts["crls"] = b""
        return made(content, **parts)


def locator(key):
    return world.locator_text([folder_of(key) + b"a.cer"], key)


def tal(key):
    return "tal", locator(key)


def ca(*chain):
    return "ca", chain


def holder(key, issuer, claims):
    return {"role": "holder", "key": key, "issuer": issuer, "claims": claims}


def authority(key, issuer, claims):
    return {"role": "authority", "key": key, "issuer": issuer, "claims": claims}


def anchor(key, claims):
    return {"role": "anchor", "key": key, "issuer": key, "claims": claims}


WIDE = {"as": [(64000, 65000)], "ipv4": ["192.0.2.0/24", "198.51.100.0/24"], "ipv6": ["2001:db8::/32"]}
LOW = {"as": [(64496, 64500)], "ipv4": ["192.0.2.0/25"]}
HIGH = {"as": [(64501, 64502)], "ipv6": ["2001:db8:1::/48"]}
BOTH = {"as": [(64496, 64502)], "ipv4": ["192.0.2.0/25"], "ipv6": ["2001:db8:1::/48"]}
TOP = certificate(**anchor(ANCHOR, WIDE))
NEXT = certificate(**authority(CA, ANCHOR, WIDE))
# Two who sign, each below an authority of its own, and both authorities below one anchor.
TREE = Base(
    {
        "one": holder(ONE, CA, LOW),
        "two": holder(TWO, OTHER_CA, HIGH),
        "ca": authority(CA, ANCHOR, WIDE),
        "other": authority(OTHER_CA, ANCHOR, WIDE),
        "anchor": anchor(ANCHOR, WIDE),
    },
    {"ca list": {"key": CA}, "other list": {"key": OTHER_CA}, "anchor list": {"key": ANCHOR}},
    (ONE, TWO),
    BOTH,
    tal(ANCHOR),
)
# One who signs, below an authority that isn't carried.
ALONE = Base({"one": holder(ONE, CA, {"as": [64496]})}, {}, (ONE,), {"as": [64496]}, ca(TOP, NEXT))
# One who signs, below an authority that is carried, and whose issuer isn't.
SHORT = Base(
    {"one": holder(ONE, OTHER_CA, LOW), "other": authority(OTHER_CA, CA, WIDE)}, {"other list": {"key": OTHER_CA}}, (ONE,), LOW, ca(TOP, NEXT)
)
# One who signs, whose certificate is signed by itself.
ITSELF = Base({"one": holder(ONE, ONE, LOW)}, {}, (ONE,), LOW, tal(ONE))
# Two who sign below two anchors.
APART = Base(
    {"one": holder(ONE, ANCHOR, LOW), "two": holder(TWO, SECOND_ANCHOR, HIGH), "a": anchor(ANCHOR, WIDE), "b": anchor(SECOND_ANCHOR, WIDE)},
    {"a list": {"key": ANCHOR}, "b list": {"key": SECOND_ANCHOR}},
    (ONE, TWO),
    BOTH,
    tal(ANCHOR),
    tal(SECOND_ANCHOR),
)


def ring(size):
    """One who signs, below authorities each of which is below the next, and the last below the first."""
    keys = [20 + at for at in range(size)]
    certs = {f"ca {at}": authority(key, keys[(at + 1) % size], WIDE) for at, key in enumerate(keys)}
    lists = {f"list {at}": {"key": key} for at, key in enumerate(keys)}
    return Base({"one": holder(ONE, keys[0], LOW), **certs}, lists, (ONE,), LOW)


def chain(size):
    """So many certificates from one who signs up to an anchor."""
    keys = [100 + at for at in range(size - 1)]
    certs = {f"ca {at}": authority(key, above, WIDE) for at, (key, above) in enumerate(zip(keys, keys[1:]))}
    certs["anchor"] = anchor(keys[-1], WIDE)
    lists = {f"list {at}": {"key": key} for at, key in enumerate(keys)}
    return Base({"one": holder(ONE, keys[0], LOW), **certs}, lists, (ONE,), LOW, tal(keys[-1]))
