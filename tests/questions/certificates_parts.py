"""Certificates that are made of named parts, for tests/questions/certificates_roles.py.

A certificate is good in its role, and changes make it another one (RFC 5280 4.1, RFC 6487 4, RFC 3779 2 and 3, RFC 8360 4.2,
RFC 8209 3.1). FAILS has how one fails each test of inspection, and TESTS the tests of each role in their order.
"""

import rpki_repositories as world
from rpki_repositories import NULL, PKIX, bits, integer, oid, seq, tlv

MOMENT, FIRST, LAST = b"20250101000000Z", b"20240101000000Z", b"20260101000000Z"
HOST = "rsync://example.com/m/p"
ALL = {"ipv4": ["0.0.0.0/0"], "ipv6": ["::/0"], "as": [(0, 2**32 - 1)]}
KINDS = ("ipv4", "ipv6", "as")
SIGN = seq(oid("1.2.840.113549.1.1.11"), NULL)
SIGN_BARE = seq(oid("1.2.840.113549.1.1.11"))
RSA = seq(oid("1.2.840.113549.1.1.1"), NULL)
ECDSA = seq(oid("1.2.840.10045.2.1"), oid("1.2.840.10045.3.1.7"))
ROUTER = PKIX + "3.30"
METHODS = {"repository": 5, "manifest": 10, "object": 11, "notify": 13}
OTHER_KEY = b"\x44" * 20


# Names: one commonName, here a PrintableString (RFC 6487 4.4).


def name(text, tag=0x13, kind="2.5.4.3"):
    return seq(tlv(0x31, seq(oid(kind), tlv(tag, text))))


NAMED = {"issuer": b"issuer-1", "subject": b"subject-1"}


class Parts:
    """A good certificate of a role; `change` makes it another one."""

    def __init__(self, role):
        self.role, self.serial = role, 12
        self.inner = self.outer = SIGN
        self.issuer, self.subject = (name(NAMED[end]) for end in ("issuer", "subject"))
        self.validity = FIRST, LAST
        self.key = seq(ECDSA if role == "router" else RSA, bits(b"\x04" + b"k" * 8))
        is_ca = role in ("ta", "ca")
        own = world.hashlib.sha1(b"\x04" + b"k" * 8).digest()
        self.basic = True if is_ca else None
        self.subject_key, self.authority_key = own, own if role == "ta" else b"\x77" * 20
        self.usage = is_ca
        self.purposes = [ROUTER] if role == "router" else None
        self.crl = None if role == "ta" else f"{HOST}/list.crl"
        self.aia = None if role == "ta" else "rsync://example.com/m/above.cer"
        self.places = {
            "ta": {"repository": HOST, "manifest": f"{HOST}/mft.mft"},
            "ca": {"repository": HOST, "manifest": f"{HOST}/mft.mft", "notify": "https://example.com/notify.xml"},
            "ee": {"object": f"{HOST}/object.roa"},
        }.get(role, {})
        self.trims = False
        self.claims = dict(ALL) if role == "ta" else {"as": [64496]} if role == "router" else {"ipv4": ["10.0.0.0/8"], "as": [64496]}
        self.swap = lambda listed: listed

    def extensions(self):
        """By name, in the order of RFC 6487 4.8."""
        extension = world.extension
        listed = {
            "basic": self.basic is not None and world.basic(self.basic),
            "subject key": self.subject_key and extension("2.5.29.14", tlv(4, self.subject_key)),
            "authority key": self.authority_key and extension("2.5.29.35", seq(tlv(0x80, self.authority_key))),
            "usage": world.usage(self.usage),
            "purposes": self.purposes and extension("2.5.29.37", seq(*map(oid, self.purposes))),
            "crl": self.crl and world.crl_point(self.crl.encode()),
            "aia": self.aia and world.issuer_at(self.aia.encode()),
            "places": self.places and world.access(*((METHODS[kind], uri.encode()) for kind, uri in self.places.items())),
            "policy": world.policies(self.trims),
        }
        listed = [(kind, octets) for kind, octets in listed.items() if octets]
        kinds = (["addresses"] if "ipv4" in self.claims or "ipv6" in self.claims else []) + (["numbers"] if "as" in self.claims else [])
        return listed + list(zip(kinds, world.claims_of(self.claims, self.trims)))

    def signed(self):
        listed = self.swap(self.extensions())
        return seq(
            tlv(0xA0, integer(2)),
            integer(self.serial),
            self.inner,
            self.issuer,
            seq(*map(world.time, self.validity)),
            self.subject,
            self.key,
            tlv(0xA3, seq(*(octets for _, octets in listed))),
        )

    def octets(self):
        return seq(self.signed(), self.outer, bits(b"signed")).hex()

    def told(self):
        """What is told of what is signed, word by word."""
        claims = ["missing" if kind not in self.claims else "inherit" if self.claims[kind] == "inherit" else "listed" for kind in KINDS]
        words = [self.serial, self.issuer, *(end.decode() for end in self.validity), self.subject, self.key, self.inner == SIGN]
        words += [self.subject_key, self.authority_key, self.authority_key in (None, self.subject_key)]
        words += [self.basic, self.basic is True, "ca" if self.usage else "ee", self.purposes is not None]
        words += [self.crl, self.aia, *(self.places.get(kind) for kind in METHODS)]
        words += ["trim" if self.trims else "refuse", *claims, "ipv4" in self.claims or "ipv6" in self.claims]
        return " ".join(map(word, words))

    def whole(self):
        """The same with the signature."""
        return " ".join([self.told(), *map(word, (self.outer == SIGN, b"signed"))])

    def held(self, holder=None):
        """The numbers that are held, as they are listed."""
        return "holds " + " ".join(f"[{shown(kind, self.claims.get(kind, []))}]" for kind in KINDS)


def word(fact):
    if fact is None:
        return "-"
    if isinstance(fact, bool):
        return "true" if fact else "false"
    return "x" + fact.hex() if isinstance(fact, bytes) else str(fact)


def shown(kind, items):
    if kind != "as":
        return ", ".join(item if isinstance(item, str) else "-".join(item) for item in items)
    return ", ".join(f"AS{item}" if isinstance(item, int) else "-".join(f"AS{end}" for end in item) for item in items)


# Changes of a certificate.


def sets(**parts):
    return lambda c: c.__dict__.update(parts)


def places(**uris):
    def change(c):
        c.places = {kind: uri for kind, uri in {**c.places, **uris}.items() if uri}

    return change


def other_key(c):
    c.key = seq(RSA if c.role == "router" else ECDSA, bits(b"\x04" + b"k" * 8))


def claims(**listed):
    def change(c):
        c.claims = {kind: items for kind, items in {**c.claims, **listed}.items() if items}

    return change


FAILS = {
    "AlgorithmMismatch": sets(outer=SIGN_BARE),
    "BadIssuer": sets(issuer=name(b"O", kind="2.5.4.10")),
    "BadSubject": sets(subject=name(b"O", kind="2.5.4.10")),
    "KeyAlgorithm": other_key,
    "KeyIdMismatch": sets(subject_key=OTHER_KEY),
    "ExtendedKeyUsagePresent": sets(purposes=[ROUTER]),
    "ExtendedKeyUsageMissing": sets(purposes=None),
    "NotRouterUsage": sets(purposes=[PKIX + "3.1"]),
    "BasicConstraintsMissing": sets(basic=None),
    "BasicConstraintsPresent": sets(basic=False),
    "NotCa": sets(basic=False),
    "WrongKeyUsage": lambda c: setattr(c, "usage", not c.usage),
    "RepositoryMissing": places(repository=None),
    "RepositoryPresent": places(repository=HOST),
    "ManifestMissing": places(manifest=None),
    "ManifestPresent": places(manifest=f"{HOST}/mft.mft"),
    "ManifestNotChild": places(manifest="rsync://example.com/m/q/mft.mft"),
    "SignedObjectMissing": places(object=None),
    "SignedObjectPresent": places(object=f"{HOST}/object.roa"),
    "AuthorityKeyMismatch": sets(authority_key=OTHER_KEY),
    "CrlMissing": sets(crl=None),
    "CrlPresent": sets(crl=f"{HOST}/list.crl"),
    "AiaPresent": sets(aia="rsync://example.com/m/above.cer"),
    "SiaPresent": places(notify="https://example.com/notify.xml"),
    "IpResourcesPresent": claims(ipv4=["10.0.0.0/8"]),
    "AsResourcesInherited": claims(**{"as": "inherit"}),
}
# What the Rust crate prints of a failing test; where it has several texts for one, docs/DIFFERENCES.md says which is this.
TEXTS = {
    "AlgorithmMismatch": "signature algorithm mismatch in certificate",
    "BadIssuer": "invalid issuer",
    "BadSubject": "invalid subject",
    "KeyAlgorithm": "public key algorithm not allowed for RPKI certificates",
    "KeyIdMismatch": "Subject Key Identifier extension doesn't match public key",
    "ExtendedKeyUsagePresent": "Extended Key Usage extension not allowed in RPKI certificates",
    "ExtendedKeyUsageMissing": "missing Extended Key Usage extension in router certificate",
    "NotRouterUsage": "Extended Key Usage extension is missing id-kp-bgpsec-router usage in router certificate",
    "BasicConstraintsMissing": "missing Basic Constraints extension in CA certificate",
    "BasicConstraintsPresent": "Basic Constraints extension not allowed in end entity certificate",
    "NotCa": "cA flag in Basic Constraints extension set to false",
    "WrongKeyUsage": "invalid Key Usage extension in certificate",
    "RepositoryMissing": "missing id-ad-caRepository SIA instance in CA certificate",
    "RepositoryPresent": "id-ad-caRepository SIA instance not allowed in end entity certificate",
    "ManifestMissing": "missing id-ad-rpkiManifest SIA instance in CA certificate",
    "ManifestPresent": "id-ad-rpkiManifest SIA instance not allowed in end entity certificate",
    "ManifestNotChild": "id-ad-rpkiManifest is not a child of id-ad-caRepository",
    "SignedObjectMissing": "missing id-ad-signedObject SIA instance in signed object end entity certificate",
    "SignedObjectPresent": "id-ad-signedObject SIA instance not allowed in CA certificate",
    "AuthorityKeyMismatch": "Authority Key Identifier doesn't match Subject Key Identifier",
    "CrlMissing": "missing CRL Distribution Points extension in certificate",
    "CrlPresent": "CRL Distribution Points extension not allowed in trust anchor certificate",
    "AiaPresent": "Authority Information Access extension not allowed in trust anchor certificate",
    "SiaPresent": "Subject Information Access extension not allowed in router certificate",
    "IpResourcesPresent": "IP Resources extension not allowed in router certificate",
    "AsResourcesInherited": "inherited AS Resources in router certificate",
}
BASICS = ["AlgorithmMismatch", "BadIssuer", "BadSubject", "KeyAlgorithm", "KeyIdMismatch", "ExtendedKeyUsagePresent"]
AUTHORITY = ["BasicConstraintsMissing", "NotCa", "WrongKeyUsage", "RepositoryMissing", "ManifestMissing", "ManifestNotChild", "SignedObjectPresent"]
DETACHED = ["CrlMissing", "BasicConstraintsPresent", "WrongKeyUsage", "RepositoryPresent", "ManifestPresent"]
TESTS = {
    "ta": [*BASICS, *AUTHORITY, "AuthorityKeyMismatch", "CrlPresent", "AiaPresent"],
    "ca": [*BASICS, *AUTHORITY, "CrlMissing"],
    "ee": [*BASICS, *DETACHED, "SignedObjectMissing"],
    "detached": [*BASICS, *DETACHED],
    "router": [
        *("AlgorithmMismatch", "BadIssuer", "BadSubject", "KeyAlgorithm", "BasicConstraintsPresent", "KeyIdMismatch", "WrongKeyUsage"),
        *("ExtendedKeyUsageMissing", "NotRouterUsage", "CrlMissing", "SiaPresent", "IpResourcesPresent", "AsResourcesInherited"),
    ],
}
# No certificate fails both.
APART = [
    {"BasicConstraintsMissing", "NotCa"},
    {"ManifestMissing", "ManifestNotChild"},
    {"ExtendedKeyUsageMissing", "NotRouterUsage"},
    {"AsResourcesMissing", "AsResourcesInherited"},
]


def made(role, *changes):
    parts = Parts(role)
    for change in changes:
        change(parts)
    return parts
