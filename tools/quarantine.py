"""Which authority keeps a bundle's lines from coming out in time.

The rules go over chains of certificates, and chains multiply where authorities certify each other's keys: a few hundred
objects can have more chains than can be walked. `rpki_ask cost` says of each authority how many accepted chains go on below
it. The authority at the top of what is walked so often isn't the one with the most chains, since all that are above it have
as many; and where `cost` ends early, most below it have as many, too. So of those that `cost` lists the one is taken below
which each object is read most often, by the certificates and manifests that the bundle has: how many files stand on the
paths below it, for each file that is there. In a tree that is one everywhere, however large the tree is.

What an authority publishes is left out by its manifest alone, the one that its certificate names: without it nothing of the
publication point counts (RFC 9286 6), and no other authority has that manifest. What lies in the same folder stays, since
the folder that a certificate names may have others' folders in it.
"""

import collections
import re

from bundles import BOOLEAN, OID, Bundle, Malformed, lookup_key
from relaxed import CONSTRUCTED, Values
from signed import INTEGER, OCTET_STRING, SEQUENCE, SET, TAG_0, TAG_3
from signed import Malformed as Unsigned

IA5_STRING, GENERALIZED_TIME = 0x16, 0x18
SUBJECT_KEY = bytes.fromhex("551d0e")
# Access to what the subject publishes (RFC 6487 4.8.8): its repository and its manifest.
SUBJECT_ACCESS = bytes.fromhex("2b0601050507010b")
REPOSITORY, MANIFEST = bytes.fromhex("2b06010505073005"), bytes.fromhex("2b0601050507300a")
URI_NAME = 0x86
RSYNC = re.compile(rb"(?i)rsync://[!-.0-~]+/[!-.0-~][!-~]*\Z")
# So many authorities that `cost` lists, the costliest first, are looked at.
MOST_LOOKED_AT = 40
# Where each object is read no more often than this on average, the bundle is large, and nobody makes its chains many.
MOST_READ = 2
# `cost` counts so many chains at least.
LEAST_BUDGET = 10_000

# An authority's certificate: its key's identifier, and the lookup keys of what it names.
Authority = collections.namedtuple("Authority", "key repository manifest")

# Who is to be left out: the lookup key of its certificate, how many chains go on below it, whether there may be more, and
# the lookup keys of its manifests.
Found = collections.namedtuple("Found", "authority chains is_least manifests")


def listed(text):
    """The authorities with their numbers of chains, as `rpki_ask cost` lists them: each line that has a URI and a number."""
    rows = []
    for words in map(str.split, text.splitlines()):
        uris = [word for word in words if "://" in word]
        numbers = [word for word in words if word.isdecimal()]
        if len(uris) == len(numbers) == 1:
            rows.append((lookup_key(uris[0]), int(numbers[0])))
    return rows


def least_budget(path):
    """How many chains `cost` has to count of the bundle at that path to go past all that is a tree, in whatever order it goes
    over authorities, and to list what multiplies."""
    certs = sum(uri[-4:].lower() == ".cer" for uri in Bundle(path).places)
    return max(2 * certs, LEAST_BUDGET)


def authority_of(cert):
    """The authority whose certificate it is (RFC 6487 4.8.2 and 4.8.8)."""
    fields, found = cert.of(SEQUENCE).of(SEQUENCE), {}
    while fields.tag() not in (None, TAG_3):
        fields.next()
    for _, extension in fields.of(TAG_3).of(SEQUENCE).each():
        kind = extension.of(OID).rest()
        if extension.tag() == BOOLEAN:
            extension.next()
        value = extension.of(OCTET_STRING)
        if kind == SUBJECT_KEY:
            found[kind] = value.of(OCTET_STRING).rest()
        elif kind == SUBJECT_ACCESS:
            for _, access in value.of(SEQUENCE).each():
                method = access.of(OID).rest()
                # (the first one that is a URI for rsync counts)
                if access.tag() == URI_NAME and RSYNC.match(uri := access.of(URI_NAME).rest()):
                    found.setdefault(method, lookup_key(uri.decode("ascii")))
    try:
        return Authority(found[SUBJECT_KEY], found[REPOSITORY], found[MANIFEST])
    except KeyError:
        raise Malformed("not an authority's certificate") from None


def files_of(octets):
    """The names that a manifest lists (RFC 9286 4.2), which may be in BER, as relaxed bundles have them."""
    info = Values(octets, 0, len(octets), {}).inside(SEQUENCE, "the signed object")
    info.skip((OID, "the object's type"))
    data = info.inside(TAG_0, "the signed data").inside(SEQUENCE, "the signed data")
    data.skip((INTEGER, "the version"), (SET, "the digest algorithms"))
    content = data.inside(SEQUENCE, "the content")
    content.skip((OID, "the content's type"))
    value = string_of(content.inside(TAG_0, "the content"), OCTET_STRING, "the content")
    fields = Values(value, 0, len(value), {}).inside(SEQUENCE, "the manifest")
    if fields.tag() == TAG_0:
        fields.skip((TAG_0, "the version"))
    fields.skip((INTEGER, "the number"), (GENERALIZED_TIME, "a time"), (GENERALIZED_TIME, "a time"), (OID, "the algorithm"))
    rows = fields.inside(SEQUENCE, "the files")
    names = []
    while not rows.is_at_end():
        row = rows.inside(SEQUENCE, "a file")
        names.append(string_of(row, IA5_STRING, "a file's name").decode("ascii", "replace"))
    return names


def string_of(values, tag, what):
    """The octets of the string with that tag, however deep its pieces stand in each other (X.690 8.7 and 8.21)."""
    if values.tag() != tag | CONSTRUCTED:
        start, stop = values.next(tag, what)
        return values.octets[start:stop]
    pieces, left = [], [values.inside(tag | CONSTRUCTED, what)]
    while left:
        row = left[-1]
        if row.is_at_end():
            left.pop()
        elif row.tag() == OCTET_STRING | CONSTRUCTED:
            left.append(row.inside(OCTET_STRING | CONSTRUCTED, what))
        else:
            start, stop = row.next(OCTET_STRING, what)
            pieces.append(row.octets[start:stop])
    return b"".join(pieces)


class Authorities:
    """The authorities of a bundle, each with the files that its manifest lists, by what the objects say of themselves."""

    def __init__(self, bundle):
        self.bundle, self.known, self.listed, self.issued = bundle, {}, {}, {}

    def at(self, uri):
        """The authority whose certificate stands there, or None."""
        if uri not in self.known:
            try:
                self.known[uri] = authority_of(self.bundle.object(uri))
            except (Malformed, KeyError):
                self.known[uri] = None
        return self.known[uri]

    def files(self, uri):
        """The lookup keys of the files that the authority's manifest lists."""
        if uri not in self.listed:
            authority = self.at(uri)
            self.listed[uri] = self.files_at(authority) if authority else []
        return self.listed[uri]

    def files_at(self, authority):
        try:
            names = files_of(self.bundle.object(authority.manifest).rest())
        except (Unsigned, KeyError):
            return []
        folder = authority.repository
        return [f"{folder}{'' if folder.endswith('/') else '/'}{name}" for name in names]

    def children(self, uri):
        """The certificates of authorities at its publication point."""
        if uri not in self.issued:
            self.issued[uri] = [file for file in self.files(uri) if file[-4:].lower() == ".cer" and self.at(file)]
        return self.issued[uri]

    def ways(self, anchors):
        """Of each authority that paths lead to, the certificates of a shortest one, from the trust anchor's on."""
        found, row = {}, [(uri,) for uri in sorted(anchors)]
        while row:
            found |= {way[-1]: way for way in reversed(row) if way[-1] not in found}
            row = [(*way, child) for way in row if found[way[-1]] == way for child in self.children(way[-1]) if child not in found]
        return found

    def all_below(self, uri, keys):
        """The authorities that paths lead to from there, itself among them, that have none of these keys."""
        seen, left = {uri}, [uri]
        while left:
            more = {child for child in self.children(left.pop()) if self.at(child).key not in keys} - seen
            seen |= more
            left += more
        return seen

    def reads(self, below, uri, room):
        """How many files stand on the paths from an authority to others of these, of so many more certificates at most."""
        found = dict.fromkeys(below, 0)
        for _ in range(room + 1):
            last, found = found, {
                one: len(self.files(one)) + sum(found.get(child, 0) for child in self.children(one)) for one in below
            }
            if last == found:
                break
        return found[uri]

    def density(self, uris, anchors, depth):
        """How often files below an authority are read, on average; for each of the authorities, in their order.

        No chain has a key twice, so paths don't lead back to the keys above. Files at points that other authorities stand as
        near above aren't counted among those that are there, so that it doesn't help to certify others that have many.
        """
        ways, levels = self.ways(anchors), {}
        for one, way in ways.items():
            manifest = self.at(one).manifest if self.at(one) else None
            levels[manifest] = min(len(way), levels.get(manifest, len(way)))
        for uri in uris:
            way = ways.get(uri, ())
            below = self.all_below(uri, {self.at(one).key for one in way if self.at(one)})
            reads = self.reads(below, uri, depth - len(way)) if way else 0
            if reads <= MOST_READ * len(self.all_files(below)):
                yield 0
                continue
            farther = [one for one in below if one == uri or levels[self.at(one).manifest] > len(way)]
            yield reads / len(self.all_files(farther))

    def all_files(self, uris):
        return {file for uri in uris for file in self.files(uri)}


def find(path, text, is_least):
    """Whom to leave out of the bundle at that path, by what `rpki_ask cost` has printed: None where there is nobody."""
    bundle = Bundle(path)
    authorities, anchors = Authorities(bundle), set(bundle.anchors())
    rows = [(uri, chains) for uri, chains in listed(text) if uri not in anchors and authorities.at(uri)][:MOST_LOOKED_AT]
    often = list(authorities.density([uri for uri, _ in rows], anchors, bundle.depth))
    if not any(often):
        return None
    uri, chains = rows[often.index(max(often))]
    key = authorities.at(uri).key
    # (a key with several certificates may have several manifests)
    same = [authorities.at(one) for one, _ in rows if authorities.at(one).key == key]
    manifests = sorted({one.manifest for one in same} & bundle.places.keys())
    return Found(uri, chains, is_least, manifests) if manifests else None
