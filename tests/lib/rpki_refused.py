"""Repositories in which something is refused for each reason that there is, beside the next one in the order of the tests.

`alone()` has one world for locators, for publication points, for authorities' certificates and for objects, in which each refused
line has one fault; in those of `beside()` it has the fault whose test comes next, too, and in those of `by_chance` any others.
Values are made by rpki_repositories.py. A fault is a dictionary of what is made otherwise; `certificate` lists changes of a
certificate's parts.
"""

import dataclasses
import functools
import random
from base64 import b64encode

from rpki_repositories import ALGORITHM, ASPA, FIRST, HOST, LAST, MANIFEST, PKIX, ROA, Authority, World
from rpki_repositories import access, aspa, basic, bits, crl_point, encoded, extension, integer, issuer_at
from rpki_repositories import locator_text, manifest, oid, roa, seq, time, tlv, usage

BEFORE, AFTER = b"20241231235959Z", b"20250101000001Z"
LATE = b"20260101000001Z"  # behind the end of each certificate's validity
WHOLE = {"ipv4": ["10.0.0.0/8"], "ipv6": ["2001:db8::/32"], "as": [(64496, 64511)]}
OTHERS = {"ipv4": ["11.0.0.0/8", ("10.255.255.0", "12.0.0.3")], "ipv6": ["2001:db9::/32"], "as": [64495, (64510, 64512), 70000]}
INHERITS = {"ipv4": "inherit", "ipv6": "inherit", "as": "inherit"}
# A point of an elliptic curve, where that is the key's algorithm; nobody looks whether it is one.
CURVE = seq(seq(oid("1.2.840.10045.2.1"), oid("1.2.840.10045.3.1.7")), bits(b"\4" + bytes(64)))
BASIC, USAGE, LISTS, AUTHORITY_KEY = "2.5.29.19", "2.5.29.15", "2.5.29.31", "2.5.29.35"
ISSUER, PLACES = PKIX + "1.1", PKIX + "1.11"


# Certificates whose parts are changed before they are signed.


@dataclasses.dataclass
class Parts:
    serial: int
    issuer: bytes
    validity: tuple
    subject: bytes
    key: bytes
    extensions: list
    signer: int
    outer: bytes = ALGORITHM

    def drop(self, kind):
        self.extensions = [one for one in self.extensions if one.find(oid(kind), 0, 16) < 0]

    def put(self, kind, octets):
        self.drop(kind)
        self.extensions.append(octets)


class Faulty(World):
    """A world in which the certificates of some keys are changed."""

    def __init__(self, depth=32):
        super().__init__(depth)
        self.changes, self.renamed = {}, set()
        # of each refused line the reason that its fault is made for
        self.stated = {}

    def identifier(self, key):
        return super().identifier(key + 1 if key in self.renamed else key)

    def cert(self, key, issuer, extensions, serial=None, validity=(FIRST, LAST), signer=None):
        serial = self.number() if serial is None else serial
        signer = issuer if signer is None else signer
        parts = Parts(serial, self.name(issuer), validity, self.name(key), encoded(key), list(extensions), signer)
        for change in self.changes.get(key, ()):
            change(parts)
        names = parts.issuer, seq(*map(time, parts.validity)), parts.subject
        head = tlv(0xA0, integer(2)), integer(parts.serial), ALGORITHM
        tbs = seq(*head, *names, parts.key, tlv(0xA3, seq(*parts.extensions)))
        return seq(tbs, parts.outer, bits(self.sign(parts.signer, tbs)))

    def distrust(self, key):
        """Takes out of the table what a key has signed."""
        digest = self.digests.sha256(encoded(key))
        self.verdicts = [row for row in self.verdicts if row[0] != digest]

    def faulty(self, key, fault):
        """Notes what is changed of a key's certificate."""
        self.changes[key] = fault.get("certificate", [])
        if fault.get("renamed"):
            self.renamed.add(key)


def changed(name, value):
    return lambda parts: setattr(parts, name, value)


def dropped(kind):
    return lambda parts: parts.drop(kind)


def put(kind, octets):
    return lambda parts: parts.put(kind, octets)


def certificate(*changes):
    return {"certificate": list(changes)}


def attributes(*kinds):
    """A name of attributes by the last number of their types."""
    return seq(*(tlv(0x31, seq(oid(f"2.5.4.{kind}"), tlv(0x13, b"name"))) for kind in kinds))


def at(*entries):
    return put(PLACES, access(*((method, HOST + path) for method, path in entries)))


def both(fault, other):
    """A fault beside another one; what both set is as the first one has it, whose files are listed first."""
    changes = [*other.get("certificate", ()), *fault.get("certificate", ())]
    return {**other, **fault, "certificate": changes, "listed": [*fault.get("listed", ()), *other.get("listed", ())]}


# Faults by the words of their reasons, in the order of the tests (RFC 6487 4; 7.2).

BASICS = {
    "AlgorithmMismatch": certificate(changed("outer", seq(oid("1.2.840.113549.1.1.11")))),
    "BadIssuer": certificate(changed("issuer", attributes(10))),
    "BadSubject": certificate(changed("subject", attributes(3, 3))),
    "KeyAlgorithm": certificate(changed("key", CURVE)),
    "KeyIdMismatch": {"renamed": True},
    "ExtendedKeyUsagePresent": certificate(put("2.5.29.37", extension("2.5.29.37", seq(oid(PKIX + "3.30"))))),
}
AUTHORITIES = {
    "WrongKeyUsage": certificate(put(USAGE, usage(False))),
    "RepositoryMissing": certificate(at((10, b"f/f.mft"))),
    "ManifestMissing": certificate(at((5, b"f/"))),
    "ManifestNotChild": certificate(at((5, b"f/"), (10, b"g/f.mft"))),
    "SignedObjectPresent": certificate(at((5, b"f/"), (10, b"f/f.mft"), (11, b"f/f.roa"))),
}
# No `cer` that isn't an authority's is looked at, but what a locator leads to is.
ANCHORS = {
    **BASICS,
    "BasicConstraintsMissing": certificate(dropped(BASIC)),
    "NotCa": certificate(put(BASIC, basic(False))),
    **AUTHORITIES,
    "AuthorityKeyMismatch": certificate(put(AUTHORITY_KEY, extension(AUTHORITY_KEY, seq(tlv(0x80, b"k" * 20))))),
    "CrlPresent": certificate(put(LISTS, crl_point(HOST + b"f/f.crl"))),
    "AiaPresent": certificate(put(ISSUER, issuer_at(HOST + b"ta.cer"))),
}
SIGNED = {
    **BASICS,
    "CrlMissing": certificate(dropped(LISTS)),
    "BasicConstraintsPresent": certificate(put(BASIC, basic(False))),
    "WrongKeyUsage": certificate(put(USAGE, usage(True))),
    "RepositoryPresent": certificate(at((5, b"f/"), (11, b"f/f.roa"))),
    "ManifestPresent": certificate(at((10, b"f/f.mft"), (11, b"f/f.roa"))),
    "SignedObjectMissing": certificate(dropped(PLACES)),
}
VALIDITY = {
    "NotYetValid": certificate(changed("validity", (AFTER, LAST))),
    "Expired": certificate(changed("validity", (FIRST, BEFORE))),
}
BELOW = {
    **VALIDITY,
    "AuthorityKeyMissing": certificate(dropped(AUTHORITY_KEY)),
    "AuthorityKeyMismatch": certificate(put(AUTHORITY_KEY, extension(AUTHORITY_KEY, seq(tlv(0x80, b"k" * 20))))),
    "AiaMissing": certificate(dropped(ISSUER)),
    "BadSignature": certificate(changed("signer", 9)),
}
KINDS = {"ipv4": "V4", "ipv6": "V6", "as": "As"}


def claiming(kind):
    return {"claims": {**WHOLE, kind: OTHERS[kind]}}


CLAIMS = {kind: claiming(kind) for kind in KINDS}
CONTENT = {"Digest": {"digest": True}, "SigningTime": {"signing_time": LATE}, "Signature": {"unsigned": True}}
REVOCATION = {
    "NamesList": certificate(dropped(LISTS)),
    "SameList": certificate(put(LISTS, crl_point(HOST + b"ta/other.crl"))),
    "NotRevoked": {"revoked": True},
}


def under(word, faults):
    return {f"{word} {name}": fault for name, fault in faults.items()}


def tests_of(role, verified):
    return {**under("Inspection", role), **under("Verification", verified)}


def without(faults, *names):
    return {name: fault for name, fault in faults.items() if name not in names}


URI = HOST + b"f.cer\n"
OF_LOCATORS = {
    "BadText UnexpectedEof": {"text": URI + b"# comment\n"[:-1]},
    "BadText BadUri": {"text": b"# comment\nta.cer\n" + URI},
    "BadText BadKeyInfoEncoding": {"text": URI + b"\nAB==\n"},
    "BadText BadKeyInfo": {"text": URI + b"\nMAA=\n"},
    "NoneHeld": {"held": None},
    "NoCert": {"held": b"\x30\x03\2\1\1"},
    "BadAnchor SameKey": {"key": 9},
    **under("BadAnchor AnchorCert", under("Inspection", ANCHORS)),
    **under("BadAnchor AnchorCert Verification", VALIDITY),
    **{f"BadAnchor AnchorCert Verification Inherited{word}": {"claims": {**WHOLE, kind: "inherit"}} for kind, word in KINDS.items()},
    "BadAnchor AnchorCert Verification BadSignature": certificate(changed("signer", 9)),
}
OF_POINTS = {
    "NoManifest": {"manifest": None},
    "BadManifest": {"manifest": b"\x30\x80\0\0"},
    "ManifestFails ThisUpdate": {"updates": (AFTER, LAST)},
    "ManifestFails NextUpdate": {"updates": (FIRST, BEFORE)},
    **under("ManifestFails ManifestCert", tests_of(SIGNED, BELOW)),
    **under("ManifestFails ManifestContent", CONTENT),
    "ManifestFails NamesDiffer": {"listed": [(b"a.txt", True), (b"a.txt", True)]},
    "ManifestFails FileHeld": {"listed": [(b"b.txt", None)]},
    "ManifestFails FileHash": {"listed": [(b"c.txt", False)]},
    "ManifestFails ListListed": certificate(put(LISTS, crl_point(HOST + b"ta/other.crl"))),
    "BadList": {"list": b"\x30\0"},
    "ListFails ListAuthority": {"list_of": 9},
    "ListFails ListThisUpdate": {"list_updates": (AFTER, LAST)},
    "ListFails ListNextUpdate": {"list_updates": (FIRST, BEFORE)},
    "ListFails NotOnList": {"revoked": True},
    "ListFails ListSignature": {"list_by": 9},
    **under("ListFails ManifestClaim", CLAIMS),
}
OF_CERS = {
    "BadCer": {"file": b"\x30\0"},
    **under("CerFails CerRevocation", REVOCATION),
    **under("CerFails CerCert", tests_of({**BASICS, **AUTHORITIES}, BELOW)),
    **under("CerFails CerClaim", CLAIMS),
    "Loop": {"key": 1},
}
OF_OBJECTS = {
    "BadObject": {"file": b"\x30\0"},
    **under("ObjectFails ObjectRevocation", REVOCATION),
    **under("ObjectFails ObjectCert", tests_of(without(SIGNED, "CrlMissing"), BELOW)),
    **under("ObjectFails ObjectContent", CONTENT),
    **under("ObjectFails ObjectClaim", CLAIMS),
}
OF_ROAS = {
    "ObjectFails PrefixHeld ipv4": {"content": roa(64496, "10.255.0.0/16", "10.0.0.0/7", "11.0.0.0/8-9", "2001:db8::/32")},
    "ObjectFails PrefixHeld ipv6": {"content": roa(64496, "10.0.0.0/8", "2001:db8::/48", "2001:db8::/31-40", "::/0")},
}
OF_ASPAS = {"ObjectFails CustomerHeld": {"content": aspa(64512, 64496)}}


def pairs(faults):
    """Each fault beside the next one."""
    rows = list(faults.items())
    return [(words, both(fault, following)) for (words, fault), (_, following) in zip(rows, rows[1:])] + rows[-1:]


# Worlds.


def locators(faults):
    """A locator for each fault, with an anchor of its own."""
    world = Faulty()
    for number, (words, fault) in enumerate(faults):
        key, name = 100 + 2 * number, b"f%02d" % number
        uri, folder = HOST + name + b".cer", HOST + name + b"/"
        world.faulty(key, fault)
        world.anchor(key, fault.get("claims", WHOLE), name, uri, folder)
        if "key" in fault:
            world.locators[name] = locator_text([uri], fault["key"])
        elif CURVE in world.objects[uri]:
            world.locators[name] = world.locators[name].replace(b64encode(encoded(key)), b64encode(CURVE))
        world.locators[name] = fault.get("text", world.locators[name])
        put_or_take(world, uri, fault.get("held", world.objects[uri]))
        world.stated[name] = words
    return world


def put_or_take(world, uri, octets):
    if octets is None:
        del world.objects[uri]
    else:
        world.objects[uri] = octets


class Falsifying(Authority):
    """An authority whose objects may have other contents than were signed."""

    def signed(self, kind, content, file, claims, fault=(), **how):
        fault = dict(fault)
        key = how.setdefault("key", self.world.number())
        self.world.faulty(key, fault)
        if "signing_time" in fault:
            how["signing_time"] = fault["signing_time"]
        made = super().signed(kind, content, file, fault.get("claims", claims), **how)
        if fault.get("unsigned"):
            self.world.distrust(key)
        if fault.get("digest"):
            # (the last octet of each content may be any)
            made = made.replace(tlv(4, content), tlv(4, content[:-1] + bytes([content[-1] ^ 1])))
        return made


def points(faults):
    """An authority below the anchor for each fault of a point."""
    world = Faulty()
    ta = world.anchor(1, WHOLE)
    for number, (words, fault) in enumerate(faults):
        name = b"p%02d" % number
        below = Falsifying(world, 100 + 2 * number, HOST + b"ta/" + name + b".cer", HOST + name + b"/", name)
        ta.certify(name + b".cer", below, INHERITS)
        publish(below, fault, 1000 + 2 * number)
        world.stated[below.at] = words
    ta.publish()
    return world


def publish(authority, fault, key):
    """A point with a fault; the manifest's certificate has that key, and has its number as its serial number."""
    world, folder = authority.world, authority.folder
    authority.revoked = [key] if fault.get("revoked") else [7]
    updates, by, of = fault.get("list_updates", (FIRST, LAST)), fault.get("list_by"), fault.get("list_of")
    crl = fault.get("list", authority.list_of_revoked(updates, by, of))
    files, listed = {authority.name + b".crl": crl}, []
    for name, state in fault.get("listed", ()):
        octets = name * 2
        if state is not None:
            files[name] = octets
        listed.append((name, bytes(32) if state is False else world.digests.sha256(octets)))
    content = manifest(1, fault.get("updates", (FIRST, LAST)), [(authority.name + b".crl", world.digests.sha256(crl)), *listed])
    made = authority.signed(MANIFEST, content, authority.name + b".mft", INHERITS, fault=fault, key=key, serial=key)
    world.objects |= {folder + name: octets for name, octets in files.items()}
    world.objects[authority.manifest] = made
    put_or_take(world, authority.manifest, fault.get("manifest", made))


def cers(faults, depth=32):
    """A certificate of an authority for each fault, at the anchor's point; those that are good lead to nothing."""
    world = Faulty(depth)
    ta = world.anchor(1, WHOLE)
    for number, (words, fault) in enumerate(faults):
        key, name = fault.get("key", 100 + 2 * number), b"c%02d" % number
        if key != 1:
            world.faulty(key, fault)
        child = world.authority(key, HOST + name + b"/", name)
        ta.certify(name + b".cer", child, fault.get("claims", INHERITS), serial=key)
        ta.revoked += [key] if fault.get("revoked") else []
        ta.files[name + b".cer"] = fault.get("file", ta.files[name + b".cer"])
        world.stated[ta.folder + name + b".cer"] = words
    ta.publish()
    return world


def objects(faults, of_roa):
    """A signed object for each fault, at the anchor's point, a ROA where that is said of its number."""
    world = Faulty()
    top = world.anchor(1, WHOLE)
    ta = Falsifying(world, 1, top.at, top.folder, top.name)
    for number, (words, fault) in enumerate(faults):
        key, is_roa = 100 + 2 * number, words in OF_ROAS or words not in OF_ASPAS and of_roa(number)
        content = roa(64496, "10.1.0.0/16", "2001:db8:1::/48") if is_roa else aspa(64496, 64499)
        file = b"o%02d." % number + (b"roa" if is_roa else b"asa")
        made = ta.signed(ROA if is_roa else ASPA, fault.get("content", content), file, INHERITS, fault=fault, key=key, serial=key)
        ta.revoked += [key] if fault.get("revoked") else []
        ta.files[file] = fault.get("file", made)
        world.stated[ta.folder + file] = words
    ta.publish()
    return world


def deep():
    """Chains that have as many certificates as they may have; a loop is told first."""
    return cers([("Depth", {}), ("Loop", {"key": 1}), ("BadCer", {"file": b""}), ("Depth", {})], 1)


ALL_OBJECTS = {**OF_OBJECTS, **OF_ROAS, **OF_ASPAS}


def alone():
    """Worlds with one fault a line."""
    yield "locators", locators(OF_LOCATORS.items())
    yield "points", points(OF_POINTS.items())
    yield "certificates", cers(OF_CERS.items())
    yield "objects", objects(ALL_OBJECTS.items(), lambda number: number % 2)
    yield "depths", deep()


def beside():
    """Worlds with a fault and the next one a line; of objects what is a ROA above is an ASPA here."""
    yield "locators, two faults", locators(pairs(OF_LOCATORS))
    hashed, held = (f"ManifestFails {name}" for name in ("FileHash", "FileHeld"))
    yield "points, two faults", points([*pairs(OF_POINTS), (hashed, both(OF_POINTS[hashed], OF_POINTS[held]))])
    yield "certificates, two faults", cers(pairs(OF_CERS))
    others = [*OF_ROAS.items(), *OF_ASPAS.items()]
    yield "objects, two faults", objects([*pairs(OF_OBJECTS), *others], lambda number: number % 2 == 0)


def some_faults(rng, faults):
    """Lines with one to three faults each, and good ones."""
    rows = [({}, *rng.sample(list(faults.values()), rng.choice([0, 1, 1, 2, 2, 3]))) for _ in range(rng.randrange(1, 9))]
    return [("", functools.reduce(both, row)) for row in rows]


def second_anchor(rng, world):
    """Another anchor, which holds less or other numbers, and has certified the first one's key: a second chain to its point."""
    top = Authority(world, 1, HOST + b"ta.cer", HOST + b"ta/", b"ta")
    held = {kind: rng.choice([WHOLE, OTHERS])[kind] for kind in rng.sample(list(KINDS), rng.randrange(1, 4))}
    other = world.anchor(3, held, b"u", HOST + b"u.cer", HOST + b"u/")
    kinds = rng.sample(list(KINDS), rng.randrange(1, 4))
    other.certify(b"t.cer", top, {kind: "inherit" for kind in kinds}, trims=rng.random() < 0.5)
    other.publish()


def by_chance(seed):
    """The bundle of a seed."""
    rng = random.Random(f"refused {seed}")
    kind = rng.randrange(4)
    if kind == 0:
        world = locators(some_faults(rng, OF_LOCATORS))
    elif kind == 1:
        world = points(some_faults(rng, OF_POINTS))
    elif kind == 2:
        world = cers(some_faults(rng, OF_CERS), rng.choice([1, 2, 32]))
    else:
        world = objects(some_faults(rng, ALL_OBJECTS), lambda _: rng.random() < 0.6)
    if kind and rng.random() < 0.6:
        second_anchor(rng, world)
    if rng.random() < 0.1:
        world.moment = rng.choice([FIRST, LAST, BEFORE, AFTER, LATE])
    return world.bundle()


def single_ones():
    """Small worlds with one fault each: of each subject, and where something is named."""
    for name in ("BadText BadUri", "NoneHeld", "NoCert", "BadAnchor SameKey", "BadAnchor AnchorCert Inspection NotCa"):
        yield locators([(name, OF_LOCATORS[name])])
    manifest_ones = ("NamesDiffer", "FileHeld", "FileHash", "ManifestCert Inspection BadIssuer", "ManifestContent Digest")
    list_ones = ("ListAuthority", "NotOnList", "ManifestClaim ipv6")
    for name in ("NoManifest", *(f"ManifestFails {one}" for one in manifest_ones), "BadList", *(f"ListFails {one}" for one in list_ones)):
        yield points([(name, OF_POINTS[name])])
    for name in ("BadCer", "CerFails CerRevocation NotRevoked", "CerFails CerCert Verification Expired", "CerFails CerClaim as", "Loop"):
        yield cers([(name, OF_CERS[name])])
    yield cers([("Depth", {})], 1)
    object_ones = ("ObjectRevocation SameList", "ObjectCert Verification BadSignature", "ObjectClaim ipv4", "PrefixHeld ipv6", "CustomerHeld")
    for name in ("BadObject", *(f"ObjectFails {one}" for one in object_ones)):
        yield objects([(name, ALL_OBJECTS[name])], bool)
