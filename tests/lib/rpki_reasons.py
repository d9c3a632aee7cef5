#!/usr/bin/env python3
"""Why lines are refused, by the second reading of the rules: the first condition that isn't met.

    rpki_reasons.py < BUNDLE     prints a row for each reason: name and cause of the refused line, the reason, and where
                                 there is a chain, the locator's name and the lookup keys of its certificates
    rpki_reasons.py --test       asks worked cases and bundles by chance: the lines that have reasons are those refused; and
                                 worlds that are made for each reason (rpki_refused.py): each line has its own

Tests stand in the order in which the program asks them, each with its word; a reason is the first that fails, or that
nothing reads. Words are those of `specs/LocatorReasons`, `PointReasons` and `FileReasons` of `rpki_rules`. Rules and octets
are read by rpki_model.py and rpki_readers.py.
"""

import argparse
import collections
import re
import sys

from rpki_model import Walk, address_text, kept, lies_in, outside, prefix_runs, read_bundle, run_text
from rpki_readers import INHERIT, KINDS, NONE, Aspa, Cert, Crl, Locator, Manifest, Refused, Roa
from rpki_reason_words import bare, shortfalls
from rpki_readers import front, is_identical, is_rpki_name, join, lookup_key, parent, uri_kind

TA, CA, EE = "Ta", "Ca", "Ee"
OBJECTS = {b".roa": Roa, b".asa": Aspa}


def first(tests):
    """The first test that fails, by its words, or none. Later tests aren't asked."""
    return next((words for words, passed in tests if not passed), None)


def under(word, tests):
    """The same tests, each with a word before its own."""
    return (((word, *words), passed) for words, passed in tests)


def read(reader, *octets):
    """What octets read as, or none."""
    try:
        return reader(*octets)
    except Refused:
        return None


def in_front(octets):
    return Cert(front(octets))


def text_fault(text):
    """What is wrong with a text that is no locator (RFC 8630 2.2): the first line that is refused, or the key."""
    comments, uris, rest = True, 0, text
    while True:
        line, found, rest = rest.partition(b"\n")
        if not found:
            return "UnexpectedEof"
        line = line.removesuffix(b"\r")
        if comments and line.startswith(b"#"):
            continue
        comments = False
        if not line and uris:
            break
        if not uri_kind(line):
            return "BadUri"
        uris += 1
    digits = rest.translate(None, b"\t\n\f\r ")
    whole = re.fullmatch(rb"([A-Za-z0-9+/]{4})*([A-Za-z0-9+/]{2}==|[A-Za-z0-9+/]{3}=)?", digits)
    spare = digits.rstrip(b"=")[-1:] if digits.endswith(b"=") else b""
    # bits that no octet takes are zeros
    if not whole or spare and spare not in (b"AQgw" if digits.endswith(b"==") else b"AEIMQUYcgkosw048"):
        return "BadKeyInfoEncoding"
    return "BadKeyInfo"


class Reasons:
    """Of each refused line of a walk the reasons."""

    def __init__(self, walk):
        self.walk, self.bundle, self.held = walk, walk.bundle, walk.held
        # name, cause, reason, and the chain with its locator
        self.rows = set()
        for named, text in self.bundle.locators:
            words = self.of_locator(text)
            if words:
                self.rows.add((named, b"tal" if words[0] == "BadText" else b"anchor", words, ()))
        for named, chain, issuer, held in walk.accepted:
            self.on_chain((named, *chain), issuer, held)

    # Certificates (RFC 6487 4, 7.2) and contents (RFC 6488 3).

    def inspection(self, cert, role):
        yield ("AlgorithmMismatch",), cert.same_algorithms
        yield ("BadIssuer",), is_rpki_name(cert.issuer)
        yield ("BadSubject",), is_rpki_name(cert.subject)
        yield ("KeyAlgorithm",), cert.key.is_rsa
        yield ("KeyIdMismatch",), cert.subject_key == self.walk.digests.sha1(cert.key.bits)
        yield ("ExtendedKeyUsagePresent",), cert.extended_usage is None
        repository, manifest, signed = map(cert.place, ("repository", "manifest", "object"))
        if role == EE:
            yield ("CrlMissing",), cert.crl_uri is not None
            yield ("BasicConstraintsPresent",), cert.is_ca is None
            yield ("WrongKeyUsage",), cert.key_usage == "ee"
            yield ("RepositoryPresent",), repository is None
            yield ("ManifestPresent",), manifest is None
            yield ("SignedObjectMissing",), signed is not None
            return
        yield ("BasicConstraintsMissing",), cert.is_ca is not None
        yield ("NotCa",), cert.is_ca
        yield ("WrongKeyUsage",), cert.key_usage == "ca"
        yield ("RepositoryMissing",), repository is not None
        yield ("ManifestMissing",), manifest is not None
        above = parent(manifest)
        yield ("ManifestNotChild",), above is not None and is_identical(above, repository)
        yield ("SignedObjectPresent",), signed is None
        if role == CA:
            yield ("CrlMissing",), cert.crl_uri is not None
            return
        yield ("AuthorityKeyMismatch",), cert.authority_key in (None, cert.subject_key)
        yield ("CrlPresent",), cert.crl_uri is None
        yield ("AiaPresent",), cert.ca_issuer is None

    def validity(self, cert):
        yield ("NotYetValid",), cert.not_before <= self.bundle.moment
        yield ("Expired",), self.bundle.moment <= cert.not_after

    def below(self, cert, issuer):
        yield from self.validity(cert)
        yield ("AuthorityKeyMissing",), cert.authority_key is not None
        yield ("AuthorityKeyMismatch",), cert.authority_key == issuer.subject_key
        yield ("AiaMissing",), cert.ca_issuer is not None
        yield ("BadSignature",), self.walk.is_good(issuer.key, cert.message, cert.signature)

    def alone(self, cert):
        yield from self.validity(cert)
        for word, kind in (("InheritedV4", "ipv4"), ("InheritedV6", "ipv6"), ("InheritedAs", "as")):
            yield (word,), cert.claims[kind] is not INHERIT
        yield ("BadSignature",), self.walk.is_good(cert.key, cert.message, cert.signature)

    def of_cert(self, cert, role, issuer):
        yield from under("Inspection", self.inspection(cert, role))
        yield from under("Verification", self.below(cert, issuer))

    def of_content(self, item):
        yield ("Digest",), item.digest == self.walk.digests.sha256(item.content)
        yield ("SigningTime",), item.signing_time is None or item.signing_time <= item.cert.not_after
        yield ("Signature",), self.walk.is_good(item.cert.key, item.message, item.signature)

    def of_claim(self, cert, held):
        for kind in KINDS:
            claims = cert.claims[kind]
            unheld = () if cert.policy == "trim" or claims in (NONE, INHERIT) else outside(claims, held[kind])
            yield (kind, ", ".join(run_text(kind, *run) for run in unheld)), not unheld

    # Locators (RFC 8630).

    def of_locator(self, text):
        locator = read(Locator, text)
        if locator is None:
            return ("BadText", text_fault(text))
        found = next((uri for uri in map(lookup_key, locator.in_order()) if uri in self.held), None)
        if found is None:
            return ("NoneHeld",)
        cert = read(in_front, self.held[found])
        if cert is None:
            return ("NoCert",)
        words = first(self.of_anchor(cert, locator.key))
        return words and ("BadAnchor", *words)

    def of_anchor(self, cert, key):
        yield ("SameKey",), cert.key.encoded == key.encoded
        yield from under("AnchorCert", under("Inspection", self.inspection(cert, TA)))
        yield from under("AnchorCert", under("Verification", self.alone(cert)))

    # What is refused on an accepted chain.

    def on_chain(self, chain, issuer, held):
        words, manifest, crl = self.of_point(issuer, held)
        if words:
            self.rows.add((chain[-1], b"point", words, chain))
            return
        on = {read(in_front, self.held[key]).subject_key for key in chain[1:]}
        for file, _ in manifest.files:
            key = lookup_key(join(issuer.place("repository"), file))
            if key[-4:].lower() == b".cer":
                words = self.of_cer(key, issuer, held, manifest.cert, crl, on, len(chain) - 1)
            elif key[-4:].lower() in OBJECTS:
                words = self.of_object(key, issuer, held, manifest.cert, crl)
            else:
                continue
            if words:
                cause = {"Loop": b"loop", "Depth": b"depth"}.get(words[0], b"object")
                self.rows.add((key, cause, words, chain))

    # Publication points (RFC 9286 6).

    def of_point(self, issuer, held):
        """The reason, or else the manifest and the list."""
        at = issuer.place("manifest")
        octets = self.held.get(lookup_key(at)) if at is not None else None
        if octets is None:
            return ("NoManifest",), None, None
        manifest = read(Manifest, octets, self.bundle.strict)
        if manifest is None:
            return ("BadManifest",), None, None
        words = first(self.of_manifest(manifest, issuer))
        if words:
            return ("ManifestFails", *words), manifest, None
        crl = read(lambda octets: Crl(front(octets)), self.held[lookup_key(manifest.cert.crl_uri)])
        if crl is None:
            return ("BadList",), manifest, None
        words = first(self.of_list(crl, manifest.cert, issuer, held))
        return words and ("ListFails", *words), manifest, crl

    def of_manifest(self, manifest, issuer):
        cert, folder = manifest.cert, issuer.place("repository")
        yield ("ThisUpdate",), manifest.this <= self.bundle.moment
        yield ("NextUpdate",), self.bundle.moment <= manifest.next
        yield from under("ManifestCert", self.of_cert(cert, EE, issuer))
        yield from under("ManifestContent", self.of_content(manifest))
        yield ("Folder",), folder is not None
        names = [file for file, _ in manifest.files]
        yield ("NamesDiffer",), len(set(names)) == len(names)
        keys = {file: lookup_key(join(folder, file)) for file in names}
        for file, digest in manifest.files:
            yield ("FileHeld", file.decode()), keys[file] in self.held
            yield ("FileHash", file.decode()), self.walk.digests.sha256(self.held[keys[file]]) == digest
        yield ("ListNamed",), cert.crl_uri is not None
        yield ("ListListed",), lookup_key(cert.crl_uri) in keys.values()

    def of_list(self, crl, cert, issuer, held):
        yield ("ListAuthority",), crl.authority_key == issuer.subject_key
        yield ("ListThisUpdate",), crl.this <= self.bundle.moment
        yield ("ListNextUpdate",), self.bundle.moment <= crl.next
        yield ("NotOnList",), cert.serial not in crl.serials
        yield ("ListSignature",), self.walk.is_good(issuer.key, crl.message, crl.signature)
        yield from under("ManifestClaim", self.of_claim(cert, held))

    # Files of a point that stands.

    def of_revocation(self, cert, listing, crl):
        yield ("NamesList",), cert.crl_uri is not None
        yield ("SameList",), lookup_key(cert.crl_uri) == lookup_key(listing.crl_uri)
        yield ("NotRevoked",), cert.serial not in crl.serials

    def of_cer(self, key, issuer, held, listing, crl, on, count):
        cert = read(in_front, self.held[key])
        if cert is None:
            return ("BadCer",)
        if not cert.is_ca:
            return None
        words = first(self.of_child(cert, issuer, held, listing, crl))
        if words:
            return ("CerFails", *words)
        if cert.subject_key in on:
            return ("Loop",)
        return ("Depth",) if self.bundle.depth <= count else None

    def of_child(self, cert, issuer, held, listing, crl):
        yield from under("CerRevocation", self.of_revocation(cert, listing, crl))
        yield from under("CerCert", self.of_cert(cert, CA, issuer))
        yield from under("CerClaim", self.of_claim(cert, held))

    def of_object(self, key, issuer, held, listing, crl):
        item = read(OBJECTS[key[-4:].lower()], self.held[key], self.bundle.strict)
        if item is None:
            return ("BadObject",)
        words = first(self.of_payload(item, issuer, held, listing, crl))
        return words and ("ObjectFails", *words)

    def of_payload(self, item, issuer, held, listing, crl):
        cert = item.cert
        yield from under("ObjectRevocation", self.of_revocation(cert, listing, crl))
        yield from under("ObjectCert", self.of_cert(cert, EE, issuer))
        yield from under("ObjectContent", self.of_content(item))
        yield from under("ObjectClaim", self.of_claim(cert, held))
        holds = kept(held, cert.claims)
        if isinstance(item, Aspa):
            yield ("CustomerHeld", str(item.customer)), lies_in([(item.customer, item.customer)], holds["as"])
            return
        # the IPv4 prefixes first, each family in its order
        rows = sorted(zip(item.prefixes, prefix_runs(item)), key=lambda row: row[0][0] != "ipv4")
        for (kind, address, length, _), (_, run) in rows:
            yield ("PrefixHeld", kind, f"{address_text(kind, address)}/{length}"), lies_in([run], holds[kind])


def reasons(octets):
    """The rows of a bundle, or none where the octets are none."""
    bundle = read_bundle(octets)
    return None if bundle is None else Reasons(Walk(bundle)).rows


def row_text(row):
    name, cause, words, chain = row
    return " ".join([name.decode(), cause.decode(), " ".join(words), *(key.decode() for key in chain)])


# Whether reasons and refusals agree.


def check(name, octets):
    """Each refused line has a reason by its cause, and each reason is that of a line; one chain has one reason for a name."""
    bundle = read_bundle(octets)
    if bundle is None:
        return set()
    walk = Walk(bundle)
    rows = Reasons(walk).rows
    told = {(named, cause) for named, cause, _, _ in rows}
    assert told == walk.refusals, f"{name}: {sorted(told ^ walk.refusals)}"
    places = [(named, chain) for named, _, _, chain in rows]
    assert len(places) == len(set(places)), f"{name}: two reasons in one place"
    return rows


# Of worked cases the reason of one line.
STATED = {
    "revoked-roa": "ObjectFails ObjectRevocation NotRevoked",
    "loop-and-depth": "Loop",
    "loop-and-depth, depth 2": "Depth",
    "trimmed-ca, Refuse": "CerFails CerClaim ipv4 11.0.0.0/8",
    "manifest-overclaim": "ListFails ManifestClaim as AS64500",
    "manifest-lists, a.roa twice": "ManifestFails NamesDiffer",
    "manifest-lists, z.txt": "ManifestFails FileHeld z.txt",
    "first-uri, held": "NoCert",
    "router-cer, unreadable": "BadCer",
    "changed-roa 400": "ManifestFails FileHash a.roa",
    "ber-manifest--false": "BadManifest",
    "ber-roa--version-0": "BadObject",
}


# Of texts that are no locators the fault.
URI = b"rsync://r.example/m/ta.cer\n"
TEXTS = {
    b"": "UnexpectedEof",
    b"# comment\n": "UnexpectedEof",
    URI: "UnexpectedEof",
    URI + b"rsync://r.example/m/b.cer": "UnexpectedEof",
    b"\n": "BadUri",
    b"ta.cer\n": "BadUri",
    URI + b"# comment\n": "BadUri",
    URI + b"\nAAA": "BadKeyInfoEncoding",
    URI + b"\nAB==": "BadKeyInfoEncoding",
    URI + b"\nAA==": "BadKeyInfo",
    URI + b"\r\n A A\t=\n=": "BadKeyInfo",
    URI + b"\n": "BadKeyInfo",
}


def shown():
    """How often each reason is shown by the worlds that are made for reasons, of which each line has the stated one."""
    import rpki_refused

    found = collections.Counter()
    for name, world in (*rpki_refused.alone(), *rpki_refused.beside()):
        told = {row[0]: bare(row[2]) for row in check(name, world.bundle())}
        assert told == world.stated, f"{name}: {sorted(told.items() ^ world.stated.items())}"
        found.update(told.values())
    return found


def test(count):
    import rpki_chance
    import rpki_walks

    lacking = list(shortfalls(shown()))
    assert not lacking, "\n".join(lacking)
    for text, fault in TEXTS.items():
        assert read(Locator, text) is None and text_fault(text) == fault, f"{text}: {text_fault(text)}"
    seen, stated = set(), dict(STATED)
    for name, world, _ in rpki_walks.worked_cases():
        words = {" ".join(row[2]) for row in check(name, world.bundle())}
        seen |= words
        if name in stated:
            assert stated[name] in words, f"{name}: {sorted(words)}"
            del stated[name]
    assert not stated, f"no such case: {sorted(stated)}"
    for seed in range(count):
        for bundle in (rpki_chance.bundle_by_chance(seed), rpki_chance.relaxed_bundle(seed)):
            seen |= {" ".join(row[2]) for row in check(f"by chance, {seed}", bundle)}
    print(f"{len(seen)} reasons, each line with one")


def main():
    sys.setrecursionlimit(10_000)
    parser = argparse.ArgumentParser(description=__doc__, formatter_class=argparse.RawDescriptionHelpFormatter)
    parser.add_argument("--test", nargs="?", type=int, const=100, metavar="COUNT")
    given = parser.parse_args()
    if given.test is not None:
        return test(given.test)
    rows = reasons(sys.stdin.buffer.read())
    if rows is None:
        print("not a bundle", file=sys.stderr)
        return 1
    sys.stdout.write("".join(f"{row_text(row)}\n" for row in sorted(rows)))
    return 0


if __name__ == "__main__":
    sys.exit(main())
