"""What choosing between copies asks of octets: who publishes where, what a manifest lists and who signed it, and how many origins
or providers an object has.

Octets are those of one file each. A reader here asks for less than the profiles do, as `signed` does: whatever a validator
accepts is read, and of what it refuses nothing has to be.
"""

import collections
import hashlib
import re

import rsa_keys
import signed
from relaxed import Values
from signed import INTEGER, OCTET_STRING, OID, SEQUENCE, SET, TAG_0, TAG_3, Malformed

IA5, BIT_STRING, GENERALIZED_TIME, UTC_TIME = 0x16, 0x03, 0x18, 0x17
# A URI among names (RFC 5280 4.2.1.6).
URI = 0x86
# The contents of object identifiers: of types of content, of an attribute, of an extension, and of what it has.
ROA = bytes.fromhex("2a864886f70d0109100118")
ASPA = bytes.fromhex("2a864886f70d0109100131")
MANIFEST = bytes.fromhex("2a864886f70d010910011a")
MESSAGE_DIGEST = bytes.fromhex("2a864886f70d010904")
SUBJECT_ACCESS = bytes.fromhex("2b0601050507010b")
IN_MANIFEST = bytes.fromhex("2b0601050507300a")
IN_NOTIFICATION = bytes.fromhex("2b0601050507300d")
# The least octets that a prefix of a ROA and a provider of an ASPA have.
LEAST = {ROA: 5, ASPA: 3}
RSYNC_URI, HTTPS_URI = re.compile(rb"(?i)rsync://[!-.0-~]+/[!-.0-~]+/[!-~]+\Z"), re.compile(rb"(?i)https://[!-.0-~]+(/[!-~]*)?\Z")

# An authority's certificate: its key's identifier, the key's bits, the first readable URIs of its manifest and of its
# notification file (None where there is none), and the first and the last moment of its validity.
Authority = collections.namedtuple("Authority", "identifier bits manifest notification first last")

# A manifest: its number, the first and the last moment, the names of its files, each with a line's end behind it, and their
# digests one after the other. So it takes no more memory than octets, however many files it lists.
Manifest = collections.namedtuple("Manifest", "number first last names digests")

DIGEST, LINE_END = hashlib.sha256().digest_size, b"\n"


def names_of(manifest):
    """The names of a manifest's files."""
    return manifest.names.decode("latin-1").split("\n")[:-1]


def entries_of(manifest):
    """The names of a manifest's files, each with its digest."""
    for at, name in enumerate(names_of(manifest)):
        yield name, manifest.digests[at * DIGEST : (at + 1) * DIGEST]


def moment_at(values):
    """A moment as YYYYMMDDHHMMSSZ (RFC 5280 4.1.2.5)."""
    if values.tag() == UTC_TIME:
        start, stop = values.next(UTC_TIME, "a moment")
        text = values.octets[start:stop].decode("latin-1")
        return ("20" if text < "50" else "19") + text
    start, stop = values.next(GENERALIZED_TIME, "a moment")
    return values.octets[start:stop].decode("latin-1")


def places(access):
    """The first readable URI of a manifest, and of a notification file, of an extension's octets (RFC 6487 4.8.8.1, RFC 8182 3.2)."""
    found = {}
    rows = Values(access, 0, len(access), {}).inside(SEQUENCE, "the places")
    while not rows.is_at_end():
        row = rows.inside(SEQUENCE, "a place")
        start, stop = row.next(OID, "a place's method")
        method = row.octets[start:stop]
        if row.tag() == URI:
            start, stop = row.next(URI, "a place's URI")
            uri = row.octets[start:stop]
            if (HTTPS_URI if method == IN_NOTIFICATION else RSYNC_URI).match(uri):
                found.setdefault(method, uri.decode())
    return found.get(IN_MANIFEST), found.get(IN_NOTIFICATION)


def access_of(extensions):
    """The octets of the extension that says where an authority publishes."""
    while not extensions.is_at_end():
        extension = extensions.inside(SEQUENCE, "an extension")
        start, stop = extension.next(OID, "an extension's identifier")
        if extension.octets[start:stop] == SUBJECT_ACCESS:
            if extension.tag() == signed.BOOLEAN:
                extension.next(signed.BOOLEAN, "whether it is critical")
            return extension.string(OCTET_STRING, "an extension's value")
    raise Malformed("it isn't an authority's")


def authority(octets):
    """The authority whose certificate stands in front of the octets."""
    cert = signed.read_cert(octets, 0, len(octets))
    if cert.bits is None or not signed.has_identifier(cert.bits, cert.identifier):
        raise Malformed("the subject key identifier isn't that of the key")
    signed.check_size(cert.bits)
    content = Values(octets, 0, len(octets), {}).inside(SEQUENCE, "it").inside(SEQUENCE, "the content")
    content.skip(*signed.BEFORE_KEY[:4])
    validity = content.inside(SEQUENCE, "the validity")
    first, last = moment_at(validity), moment_at(validity)
    content.skip(*signed.BEFORE_KEY[5:], (SEQUENCE, "the key"))
    extensions = content.inside(TAG_3, "the extensions").inside(SEQUENCE, "the extensions")
    manifest, notification = places(access_of(extensions))
    if manifest is None:
        raise Malformed("it names no manifest")
    return Authority(cert.identifier, cert.bits, manifest, notification, first, last)


def is_own(octets):
    """Whether the certificate in front of the octets is signed by its own key."""
    cert = signed.read_cert(octets, 0, len(octets))
    return cert.authority == cert.identifier and is_signed(cert.bits, cert.identifier, cert.message, cert.signature)


def is_signed(bits, identifier, message, signature):
    """Whether the signature over the message is good by the key, which has that identifier."""
    if bits is None or not signed.has_identifier(bits, identifier):
        return False
    signed.check_size(bits)
    key = rsa_keys.load_key(signed.encoded_key(bits))
    return rsa_keys.has_signed(key, hashlib.sha256(message).digest(), signature)


def is_manifest_by(found, bits):
    """Whether the signed object is a manifest whose certificate is signed by the key of these bits, and whose content is signed
    by its certificate's key."""
    cert = found.cert
    return (
        found.kind == MANIFEST
        and is_signed(bits, cert.authority, cert.message, cert.signature)
        and is_signed(cert.bits, cert.identifier, found.attributes, found.signature)
        and digest_in(found.attributes) == hashlib.sha256(found.content).digest()
    )


def digest_in(attributes):
    """The digest of the content among the attributes that are signed (RFC 5652 11.2)."""
    rows = Values(attributes, 0, len(attributes), {}).inside(SET, "the signed attributes")
    while not rows.is_at_end():
        row = rows.inside(SEQUENCE, "an attribute")
        start, stop = row.next(OID, "an attribute's type")
        if row.octets[start:stop] == MESSAGE_DIGEST:
            return row.inside(SET, "an attribute's values").string(OCTET_STRING, "the digest")
    raise Malformed("the digest is missing")


def listed(content):
    """What a manifest's content says (RFC 9286 4.2)."""
    values = Values(content, 0, len(content), {}).inside(SEQUENCE, "the manifest")
    if values.tag() == TAG_0:
        values.next(TAG_0, "the version")
    start, stop = values.next(INTEGER, "the manifest's number")
    number = int.from_bytes(values.octets[start:stop], "big")
    first, last = moment_at(values), moment_at(values)
    values.skip((OID, "the digests' algorithm"))
    start, stop = values.next(SEQUENCE, "the files")
    try:
        rows = list(files_in(content, start, stop))
    except Malformed:
        rows = list(files_in_ber(Values(content, start, stop, values.ends)))
    if any(LINE_END in name or len(digest) != DIGEST for name, digest in rows):
        raise Malformed("a file's name has a line's end, or a digest isn't one of SHA-256")
    names = b"".join(name + LINE_END for name, _ in rows)
    return Manifest(number, first, last, names, b"".join(digest for _, digest in rows))


def files_in(octets, at, end):
    """The files of a manifest in DER: of each its name and its digest."""
    while at < end:
        row, at = signed.enter(octets, at, end, SEQUENCE, "a file")
        start, stop = signed.enter(octets, row, at, IA5, "a file's name")
        first, last = signed.enter(octets, stop, at, BIT_STRING, "a file's digest")
        yield octets[start:stop], octets[first + 1 : last]


def files_in_ber(rows):
    """The same in BER."""
    while not rows.is_at_end():
        row = rows.inside(SEQUENCE, "a file")
        start, stop = row.next(IA5, "a file's name")
        yield row.octets[start:stop], row.bits("a file's digest")[1:]


def count_of(kind, content, most):
    """How many prefixes a ROA has, or an ASPA providers; where they are more than that, one more than that."""
    if content is None or len(content) // LEAST.get(kind, len(content) + 1) <= most:
        # (so long are no more than these, and content of other types isn't counted)
        return 0
    count = 0
    try:
        for _ in rows_of(kind, content):
            count += 1
            if count > most:
                break
    except Malformed:
        pass
    return count


def rows_of(kind, content):
    """The prefixes of a ROA (RFC 9582 4), or the providers of an ASPA."""
    values = Values(content, 0, len(content), {}).inside(SEQUENCE, "the content")
    if values.tag() == TAG_0:
        values.next(TAG_0, "the version")
    values.skip((INTEGER, "the number"))
    rows = values.inside(SEQUENCE, "the rows")
    if kind == ASPA:
        yield from each(rows, INTEGER)
        return
    while not rows.is_at_end():
        family = rows.inside(SEQUENCE, "a family")
        family.string(OCTET_STRING, "the family")
        yield from each(family.inside(SEQUENCE, "the prefixes"), SEQUENCE)


def each(values, tag):
    while not values.is_at_end():
        yield values.next(tag, "a row")
