#!/usr/bin/env python3
"""A second reading of the rules: what `rpki_check check` prints of a bundle, in Python.

    rpki_model.py < BUNDLE          prints the lines, or `not a bundle` with status 1
    rpki_model.py --cases FOLDER    compares with FOLDER/NAME.stdout for each NAME.stdin and NAME.args of `check`

Nothing of the repository's crates is used, and no library for DER or X.509: tests/lib/rpki_readers.py reads octets. Sets of
numbers are lists of runs, and the walk goes over all chains of certificates, from each locator down.
"""

import argparse
import collections
import hashlib
import pathlib
import sys

from rpki_readers import INHERIT, KINDS, NONE, Aspa, Cert, Crl, Locator, Manifest, Refused, Roa
from rpki_readers import front, is_identical, is_rpki_name, join, joined, lookup_key, need, parent, read_bundle, uri_kind

# Sets of numbers.


def common(some, others):
    return [(max(a, c), min(b, d)) for a, b in some for c, d in others if max(a, c) <= min(b, d)]


def lies_in(some, others):
    return all(any(c <= a and b <= d for c, d in others) for a, b in some)


def kept(held, claims):
    """Of what is held, what a certificate with these claims holds."""
    return {kind: held[kind] if claims[kind] is INHERIT else common(held[kind], claims[kind] or []) for kind in KINDS}


def fits(held, cert):
    return cert.policy == "trim" or all(
        cert.claims[kind] in (NONE, INHERIT) or lies_in(cert.claims[kind], held[kind]) for kind in KINDS
    )


def outside(runs, held):
    """The runs of the numbers that are in these runs and aren't held."""
    found = []
    for first, last in runs:
        for low, high in common([(first, last)], joined(held)):
            if first < low:
                found.append((first, low - 1))
            first = high + 1
        if first <= last:
            found.append((first, last))
    return joined(found)


def keeps(needed, cert):
    """Whether the certificate lists what is needed of each kind, or inherits the kind."""
    return all(cert.claims[kind] is INHERIT or lies_in(needed[kind], cert.claims[kind] or []) for kind in KINDS)


def claimed(cert):
    """What its issuer has to hold by the certificate's own lists: nothing where it is trimmed."""
    return {kind: runs for kind, runs in cert.claims.items() if cert.policy != "trim" and runs not in (NONE, INHERIT)}


def prefix_runs(item):
    """Of each prefix of a ROA the family and the first and last address."""
    for kind, first, length, _ in item.prefixes:
        yield kind, (first, first | (1 << KINDS[kind].bit_length() - length) - 1)


# The walk.


class Fips:
    """The digests of FIPS 180-4."""

    @staticmethod
    def sha256(octets):
        return hashlib.sha256(octets).digest()

    @staticmethod
    def sha1(octets):
        return hashlib.sha1(octets).digest()


class Point:
    """A publication point: the manifest's certificate, the files in the manifest's order, and the revocation list."""

    def __init__(self, cert, files, crl_key, crl):
        self.cert, self.files, self.crl_key, self.crl = cert, files, crl_key, crl

    def is_unrevoked(self, cert):
        return cert.crl_uri is not None and lookup_key(cert.crl_uri) == self.crl_key and cert.serial not in self.crl.serials


class Walk:
    """All that the accepted chains of a bundle attest, and all that the rules refuse."""

    def __init__(self, bundle, digests=Fips):
        self.bundle, self.digests = bundle, digests
        self.held, self.table = dict(bundle.objects), set(bundle.verdicts)
        self.origins, self.customers, self.refusals, self.witnesses = set(), {}, set(), set()
        # of each accepted chain the locator's name, the lookup keys, the last certificate and what the chain holds
        self.accepted = []
        for locator, text in bundle.locators:
            self.from_locator(locator, text)

    def is_good(self, key, message, signature):
        return tuple(map(self.digests.sha256, (key.encoded, message, signature))) in self.table

    # What is asked of certificates (RFC 6487 4 and 7.2).

    def has_basics(self, cert):
        return (
            cert.same_algorithms and is_rpki_name(cert.issuer) and is_rpki_name(cert.subject) and cert.key.is_rsa
            and cert.subject_key == self.digests.sha1(cert.key.bits) and cert.extended_usage is None
        )

    def is_authority(self, cert):
        """The part that trust anchors and other authorities have in common."""
        repository, manifest = cert.place("repository"), cert.place("manifest")
        if not (self.has_basics(cert) and cert.is_ca and cert.key_usage == "ca" and repository and manifest):
            return False
        above = parent(manifest)
        return above is not None and is_identical(above, repository) and cert.place("object") is None

    def is_published(self, cert):
        """The profile of a signed object's certificate."""
        return (
            self.has_basics(cert) and cert.crl_uri is not None and cert.is_ca is None and cert.key_usage == "ee"
            and cert.place("repository") is None and cert.place("manifest") is None and cert.place("object") is not None
        )

    def is_valid(self, cert):
        return cert.not_before <= self.bundle.moment <= cert.not_after

    def is_signed(self, cert, issuer):
        return (
            cert.authority_key == issuer.subject_key and cert.ca_issuer is not None
            and self.is_good(issuer.key, cert.message, cert.signature) and self.is_valid(cert)
        )

    def is_anchor(self, cert, key):
        return (
            self.is_authority(cert) and cert.authority_key in (None, cert.subject_key)
            and cert.crl_uri is None and cert.ca_issuer is None
            and INHERIT not in cert.claims.values() and self.is_valid(cert)
            and self.is_good(cert.key, cert.message, cert.signature) and cert.key.encoded == key.encoded
        )

    def is_sound(self, item):
        return (
            item.digest == self.digests.sha256(item.content)
            and (item.signing_time is None or item.signing_time <= item.cert.not_after)
            and self.is_good(item.cert.key, item.message, item.signature)
        )

    # From a locator down.

    def refuse(self, named, cause):
        self.refusals.add((named, cause))

    def from_locator(self, named, text):
        try:
            locator = Locator(text)
        except Refused:
            return self.refuse(named, b"tal")
        found = next((uri for uri in map(lookup_key, locator.in_order()) if uri in self.held), None)
        try:
            need(found)
            cert = Cert(front(self.held[found]))
            need(self.is_anchor(cert, locator.key))
        except Refused:
            return self.refuse(named, b"anchor")
        held = {kind: cert.claims[kind] or [] for kind in KINDS}
        self.below(named, [(found, cert)], held)

    def below(self, named, chain, held):
        """All below an accepted chain, whose last certificate holds this."""
        uri, issuer = chain[-1]
        self.accepted.append((named, tuple(key for key, _ in chain), issuer, held))
        try:
            point = self.point(issuer, held)
        except Refused:
            return self.refuse(uri, b"point")
        for file, octets in point.files:
            extension = file[-4:].lower()
            if extension == b".cer":
                self.authority(named, chain, held, point, file, octets)
            elif extension in (b".roa", b".asa"):
                try:
                    self.attested(point, issuer, held, extension, octets)
                    self.witnesses.add((named, tuple(uri for uri, _ in chain), file))
                except Refused:
                    self.refuse(file, b"object")

    def point(self, issuer, held):
        """What the authority publishes, if its manifest stands (RFC 9286 6)."""
        point = self.unheld(issuer)
        need(fits(held, point.cert))
        return point

    def unheld(self, issuer):
        """The same, the claim of the manifest's certificate apart."""
        need(issuer.place("manifest") and issuer.place("repository"))
        at = lookup_key(issuer.place("manifest"))
        need(at in self.held)
        manifest = Manifest(self.held[at], self.bundle.strict)
        cert = manifest.cert
        need(self.is_published(cert) and self.is_sound(manifest) and self.is_signed(cert, issuer))
        need(manifest.this <= self.bundle.moment <= manifest.next)
        names = [file for file, _ in manifest.files]
        need(len(set(names)) == len(names))
        files = []
        for file, digest in manifest.files:
            uri = lookup_key(join(issuer.place("repository"), file))
            need(uri in self.held and self.digests.sha256(self.held[uri]) == digest)
            files.append((uri, self.held[uri]))
        crl_key = lookup_key(cert.crl_uri)
        need(crl_key in dict(files))
        crl = Crl(front(dict(files)[crl_key]))
        need(crl.authority_key == issuer.subject_key and self.is_good(issuer.key, crl.message, crl.signature))
        need(crl.this <= self.bundle.moment <= crl.next and cert.serial not in crl.serials)
        return Point(cert, files, crl_key, crl)

    def authority(self, named, chain, held, point, file, octets):
        issuer = chain[-1][1]
        try:
            cert = Cert(front(octets))
        except Refused:
            return self.refuse(file, b"object")
        if not cert.is_ca:
            return None
        if not (self.is_below(point, issuer, cert) and fits(held, cert)):
            return self.refuse(file, b"object")
        if any(cert.subject_key == other.subject_key for _, other in chain):
            return self.refuse(file, b"loop")
        if len(chain) == self.bundle.depth:
            return self.refuse(file, b"depth")
        return self.below(named, [*chain, (file, cert)], kept(held, cert.claims))

    def is_below(self, point, issuer, cert):
        """Whether the certificate is an authority's below the issuer, the claim apart."""
        profile = self.is_authority(cert) and cert.crl_uri is not None
        return profile and point.is_unrevoked(cert) and self.is_signed(cert, issuer)

    def signed(self, point, issuer, extension, octets):
        """The sound object, the claim of its certificate apart."""
        item = (Roa if extension == b".roa" else Aspa)(octets, self.bundle.strict)
        cert = item.cert
        need(self.is_published(cert) and point.is_unrevoked(cert) and self.is_signed(cert, issuer))
        need(self.is_sound(item))
        return item

    def attested(self, point, issuer, held, extension, octets):
        item = self.signed(point, issuer, extension, octets)
        cert = item.cert
        need(fits(held, cert))
        holds = kept(held, cert.claims)
        if extension == b".asa":
            need(lies_in([(item.customer, item.customer)], holds["as"]))
            self.customers.setdefault(item.customer, set()).update(item.providers)
            return
        for kind, run in prefix_runs(item):
            need(lies_in([run], holds[kind]))
        self.origins |= {(kind, first, length, most, item.asn) for kind, first, length, most in item.prefixes}

    # How far a judge reads.

    def points_read(self, chain, file):
        """How many publication points are read of a chain and its object, from the object's up to the first refusal: at a
        point that is read what stands below it has to be sound there, and the authority has to keep what is then needed."""
        count = 0
        try:
            need(0 < len(chain) <= self.bundle.depth and all(uri in self.held for uri in chain))
            certs = [Cert(front(self.held[uri])) for uri in chain]
            need(len({cert.subject_key for cert in certs}) == len(certs))
            for at in reversed(range(len(chain))):
                point = self.unheld(certs[at])
                count += 1
                if at + 1 == len(chain):
                    lower, needed = self.needing(point, certs[at], file)
                else:
                    lower = certs[at + 1]
                    need(chain[at + 1] in dict(point.files) and chain[at + 1][-4:].lower() == b".cer")
                    need(self.is_below(point, certs[at], lower))
                lists, more = claimed(lower), claimed(point.cert)
                needed = {kind: joined([*lists.get(kind, needed[kind]), *more.get(kind, ())]) for kind in KINDS}
                need(keeps(needed, certs[at]))
        except Refused:
            pass
        return count

    def needing(self, point, issuer, file):
        """The certificate of the sound object at a file of the point, and what is attested there, which it has to keep."""
        extension = file[-4:].lower()
        need(file in dict(point.files) and extension in (b".roa", b".asa"))
        item = self.signed(point, issuer, extension, self.held[file])
        if extension == b".asa":
            needed = {**dict.fromkeys(KINDS, ()), "as": [(item.customer, item.customer)]}
        else:
            needed = {kind: joined(run for family, run in prefix_runs(item) if family == kind) for kind in KINDS}
        need(keeps(needed, item.cert))
        return item.cert, needed

    # What some URIs can reach.

    def names(self, issuer, keys):
        """Whether the authority names one of the lookup keys: as its manifest's, or as a file's that is listed there."""
        at = lookup_key(issuer.place("manifest"))
        if at in keys:
            return True
        try:
            listed = Manifest(self.held[at], self.bundle.strict).files
        except (KeyError, Refused):
            return False
        return any(lookup_key(join(issuer.place("repository"), file)) in keys for file, _ in listed)

    def naming(self, uris):
        """The accepted chains whose last certificate names one of the URIs, each a locator's name and lookup keys, in order."""
        keys = {lookup_key(uri) for uri in uris if uri_kind(uri)}
        return sorted({(named, chain) for named, chain, issuer, _ in self.accepted if self.names(issuer, keys)})

    def why(self, name):
        """What is told of a locator's name or a URI, as rows of octets: its refusals, by name and cause; the good objects
        that have it or have it on their chain, by object, locator and chain; the accepted chains that name it."""
        refusals = sorted(row for row in self.refusals if row[0] in (name, lookup_key(name)))
        goods = sorted((file, named, *chain) for named, chain, file in self.witnesses if lookup_key(name) in (file, *chain))
        return refusals, goods, [(named, *chain) for named, chain in self.naming([name])]

    def reach(self, uris):
        """None where a readable locator names one of the URIs, else by kind the numbers of the chains that name one."""
        keys = {lookup_key(uri) for uri in uris if uri_kind(uri)}
        for _, text in self.bundle.locators:
            try:
                if keys & set(map(lookup_key, Locator(text).uris)):
                    return None
            except Refused:
                pass
        reached = [held for _, _, issuer, held in self.accepted if self.names(issuer, keys)]
        return {kind: joined(run for held in reached for run in held[kind]) for kind in KINDS}

    # What a walk costs.

    def chains_below(self):
        """How many accepted chains go on below each authority, as rows of number and lookup key, the most first."""
        counts = collections.Counter(uri for _, chain, _, _ in self.accepted for uri in chain[:-1])
        return sorted(((number, uri) for uri, number in counts.items()), key=lambda row: (-row[0], row[1]))


# Lines.


def address_text(kind, address):
    if kind == "ipv4":
        return ".".join(str(octet) for octet in address.to_bytes(4, "big"))
    if address >> 32 == 0xFFFF:
        return "::ffff:" + address_text("ipv4", address & 0xFFFFFFFF)
    groups = [f"{address >> 112 - 16 * at & 0xFFFF:x}" for at in range(8)]
    length, at = max(((zeros(groups[at:]), -at) for at in range(8)))
    if length < 2:
        return ":".join(groups)
    return ":".join(groups[:-at]) + "::" + ":".join(groups[-at + length :])


def run_text(kind, first, last):
    """A block as texts have it: one number, a prefix, or two ends."""
    if kind == "as":
        return f"AS{first}" if first == last else f"AS{first}-AS{last}"
    size, width = last - first + 1, 32 if kind == "ipv4" else 128
    if size & size - 1 == 0 and first % size == 0:
        return f"{address_text(kind, first)}/{width - size.bit_length() + 1}"
    return f"{address_text(kind, first)}-{address_text(kind, last)}"


def zeros(groups):
    return next((count for count, group in enumerate(groups) if group != "0"), len(groups))


def lines(walk):
    origins = (
        f"roa AS{asn} {address_text(kind, address)}/{length} {most}"
        for kind, address, length, most, asn in sorted(walk.origins)
    )
    customers = (
        f"aspa AS{customer}" + "".join(f" AS{provider}" for provider in sorted(providers))
        for customer, providers in sorted(walk.customers.items())
    )
    refusals = (f"refused {named.decode()} {cause.decode()}" for named, cause in sorted(walk.refusals))
    return [*origins, *customers, *refusals]


def walk(octets, digests=Fips):
    """The walk over the bundle that the octets are, or None where they are none."""
    bundle = read_bundle(octets)
    return None if bundle is None else Walk(bundle, digests)


def answer(octets, digests=Fips):
    """The lines that are printed, or None where the octets are no bundle."""
    found = walk(octets, digests)
    return None if found is None else lines(found)


def compare(folder):
    """How many cases of `check` differ."""
    wrong = right = 0
    for file in sorted(pathlib.Path(folder).glob("*.args")):
        if file.read_bytes().split() != [b"check"]:
            continue
        found = answer(file.with_suffix(".stdin").read_bytes())
        said = ("", "not a bundle\n", "1") if found is None else ("".join(f"{line}\n" for line in found), "", "0")
        wanted = tuple(file.with_suffix(f".{part}").read_text() for part in ("stdout", "stderr", "status"))
        if said == (*wanted[:2], wanted[2].strip()):
            right += 1
        else:
            wrong += 1
            print(f"{file.stem}: {said} in place of {wanted}")
    print(f"{right} cases agree, {wrong} differ")
    return wrong


def main():
    sys.setrecursionlimit(10_000)
    parser = argparse.ArgumentParser(description=__doc__, formatter_class=argparse.RawDescriptionHelpFormatter)
    parser.add_argument("--cases", metavar="FOLDER")
    given = parser.parse_args()
    if given.cases:
        return 1 if compare(given.cases) else 0
    found = answer(sys.stdin.buffer.read())
    if found is None:
        print("not a bundle", file=sys.stderr)
        return 1
    sys.stdout.write("".join(f"{line}\n" for line in found))
    return 0


if __name__ == "__main__":
    sys.exit(main())
