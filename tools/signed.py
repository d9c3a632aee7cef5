"""What is signed in certificates, revocation lists and signed objects, and by which keys; `rsa_keys` checks the signatures.

Octets are read by where their values stand: nothing is copied but what is digested or checked. What a file is, its first
values tell, not its name. A reader here asks for less than the profiles do (RFC 6487, RFC 6488): whatever a validator
accepts is found, and of what it refuses nothing has to be. Lengths are those of DER; signed objects in BER are read by
`relaxed`, to the same fields.
"""

import collections
import hashlib

BOOLEAN, INTEGER, BIT_STRING, OCTET_STRING, OID = 0x01, 0x02, 0x03, 0x04, 0x06
SEQUENCE, SET = 0x30, 0x31
# [0] and [3] with values inside, and [0] with octets.
TAG_0, TAG_3, OCTETS_0 = 0xA0, 0xA3, 0x80
# Object identifiers as whole values.
RSA_ENCRYPTION = bytes.fromhex("06092a864886f70d010101")
SIGNED_DATA = bytes.fromhex("06092a864886f70d010702")
SUBJECT_KEY_IDENTIFIER = bytes.fromhex("0603551d0e")
AUTHORITY_KEY_IDENTIFIER = bytes.fromhex("0603551d23")
# RSA keys are written with NULL after the algorithm's identifier (RFC 7935 3.1).
RSA_ALGORITHM = bytes.fromhex("300d06092a864886f70d0101010500")
# A key identifier is a SHA-1 digest (RFC 6487 4.8.2).
IDENTIFIER_OCTETS = 20
# The largest keys that signatures are checked with, in bits: of a modulus, and of an exponent, above which one signature
# would take as long as hundreds do (OpenSSL has the same limit of exponents for large keys).
MOST_MODULUS_BITS, MOST_EXPONENT_BITS = 4096, 64
MOST_SIGNATURE_OCTETS = MOST_MODULUS_BITS // 8


class Malformed(Exception):
    """Octets that aren't what was to be read; the text says what was expected."""


# A certificate: its key's identifier, the one of the key that signed it, its key's bits with the count of unused ones (None
# where it is no RSA key), the octets that are signed, and the signature.
Cert = collections.namedtuple("Cert", "identifier authority bits message signature")

# A revocation list, in the same words.
List = collections.namedtuple("List", "authority message signature")

# A signed object: its certificate, the attributes as they are signed, their signature, and its content's type (the identifier's
# octets) and octets, where these can be read.
Object = collections.namedtuple("Object", "cert attributes signature kind content")


def header(octets, at, end):
    """Of the value at `at`: its tag, where its content starts, and where it ends."""
    start = at + 2
    if start > end:
        raise Malformed("the octets end within a value")
    length = octets[at + 1]
    if length > 0x7F:
        count = length - 0x80
        if not 1 <= count <= 4:
            raise Malformed("a length isn't in DER")
        start += count
        length = int.from_bytes(octets[at + 2 : start], "big")
        if length < 0x80 or length < 1 << (8 * count - 8):
            raise Malformed("a length isn't the shortest")
    if start + length > end:
        raise Malformed("a value is longer than the octets")
    return octets[at], start, start + length


def enter(octets, at, end, wanted, what):
    """Where the content of the value at `at` starts and ends, which has to have that tag."""
    start = at + 2
    if start <= end and octets[at] == wanted and octets[at + 1] < 0x80:
        # (most values are short, and this is called fifty times an object)
        stop = start + octets[at + 1]
        if stop <= end:
            return start, stop
    tag, start, stop = header(octets, at, end)
    if tag != wanted:
        raise Malformed(what + " is missing")
    return start, stop


def skip(octets, at, end, *values):
    """Where the values end that stand at `at`, each a tag and what it is."""
    for wanted, what in values:
        _, at = enter(octets, at, end, wanted, what)
    return at


def der(tag, content):
    """One value in DER."""
    size = len(content)
    if size < 0x80:
        return bytes((tag, size)) + content
    length = size.to_bytes((size.bit_length() + 7) // 8, "big")
    return bytes((tag, 0x80 + len(length))) + length + content


def identifier_at(octets, at, end, tag, what):
    """A key identifier of 20 octets."""
    start, stop = enter(octets, at, end, tag, what)
    if stop - start != IDENTIFIER_OCTETS:
        raise Malformed(what + " hasn't 20 octets")
    return octets[start:stop]


def extension_value(octets, at, end):
    """Where the octets of an extension's value start and end, which stands after its identifier at `at`."""
    if at < end and octets[at] == BOOLEAN:
        _, _, at = header(octets, at, end)
    return enter(octets, at, end, OCTET_STRING, "an extension's value")


def identifiers(octets, at, end):
    """The subject's and the authority's key identifier among extensions, each None where it isn't there."""
    subject = authority = None
    at, end = enter(octets, at, end, SEQUENCE, "the extensions")
    while at < end:
        start, at = enter(octets, at, end, SEQUENCE, "an extension")
        kind = octets[start : start + 5]
        if kind == SUBJECT_KEY_IDENTIFIER:
            start, stop = extension_value(octets, start + 5, at)
            subject = identifier_at(octets, start, stop, OCTET_STRING, "the subject key identifier")
        elif kind == AUTHORITY_KEY_IDENTIFIER:
            start, stop = extension_value(octets, start + 5, at)
            start, stop = enter(octets, start, stop, SEQUENCE, "the authority key identifier")
            authority = identifier_at(octets, start, stop, OCTETS_0, "the authority key identifier")
    return subject, authority


def signature_after(octets, at, end):
    """The signature, a BIT STRING after its algorithm; how many bits of it are unused isn't signed."""
    at = skip(octets, at, end, (SEQUENCE, "the signature's algorithm"))
    start, stop = enter(octets, at, end, BIT_STRING, "the signature")
    if start == stop:
        raise Malformed("the signature is missing")
    return octets[start + 1 : stop]


BEFORE_KEY = (
    (TAG_0, "the version"),
    (INTEGER, "the serial number"),
    (SEQUENCE, "the algorithm"),
    (SEQUENCE, "the issuer"),
    (SEQUENCE, "the validity"),
    (SEQUENCE, "the subject"),
)


def read_cert(octets, at, end):
    """The certificate at `at` (RFC 5280 4.1)."""
    at, end = enter(octets, at, end, SEQUENCE, "the certificate")
    start, stop = enter(octets, at, end, SEQUENCE, "the certificate's content")
    signature = signature_after(octets, stop, end)
    key = skip(octets, start, stop, *BEFORE_KEY)
    key, rest = enter(octets, key, stop, SEQUENCE, "the key")
    kind, key_bits = enter(octets, key, rest, SEQUENCE, "the key's algorithm")
    first, last = enter(octets, key_bits, rest, BIT_STRING, "the key's bits")
    bits = octets[first:last] if octets[kind : kind + len(RSA_ENCRYPTION)] == RSA_ENCRYPTION else None
    extensions, stop_extensions = enter(octets, rest, stop, TAG_3, "the extensions")
    subject, authority = identifiers(octets, extensions, stop_extensions)
    if subject is None:
        raise Malformed("the subject key identifier is missing")
    # a trust anchor may leave its own out (RFC 6487 4.8.3)
    return Cert(subject, authority or subject, bits, octets[at:stop], signature)


def read_list(octets, at, end):
    """The revocation list at `at` (RFC 5280 5.1)."""
    at, end = enter(octets, at, end, SEQUENCE, "the revocation list")
    field, stop = enter(octets, at, end, SEQUENCE, "the list's content")
    signature = signature_after(octets, stop, end)
    while field < stop and octets[field] != TAG_0:
        _, _, field = header(octets, field, stop)
    extensions, stop_extensions = enter(octets, field, stop, TAG_0, "the list's extensions")
    _, authority = identifiers(octets, extensions, stop_extensions)
    if authority is None:
        raise Malformed("the authority key identifier is missing")
    return List(authority, octets[at:stop], signature)


BEFORE_CONTENT = ((INTEGER, "the object's version"), (SET, "the digest algorithms"))
BEFORE_ATTRIBUTES = (
    (INTEGER, "the signer's version"),
    (OCTETS_0, "the signer's key identifier"),
    (SEQUENCE, "the digest's algorithm"),
)


def content_at(octets, at, end):
    """The type and the octets of a signed object's content (RFC 5652 5.2), each None where they can't be read."""
    try:
        start, at = enter(octets, at, end, OID, "the content's type")
        kind = octets[start:at]
        start, stop = enter(octets, *enter(octets, at, end, TAG_0, "the content"), OCTET_STRING, "the content")
        return kind, octets[start:stop]
    except Malformed:
        return None, None


def read_object(octets, at, end):
    """The signed object at `at` (RFC 5652 3 and 5, RFC 6488 2)."""
    at, end = enter(octets, at, end, SEQUENCE, "the signed object")
    if octets[at : at + len(SIGNED_DATA)] != SIGNED_DATA:
        raise Malformed("the object's type isn't that of signed data")
    at, end = enter(octets, at + len(SIGNED_DATA), end, TAG_0, "the signed data")
    at, end = enter(octets, at, end, SEQUENCE, "the signed data")
    at = skip(octets, at, end, *BEFORE_CONTENT)
    start, at = enter(octets, at, end, SEQUENCE, "the content")
    content = content_at(octets, start, at)
    cert, at = enter(octets, at, end, TAG_0, "the object's certificate")
    cert = read_cert(octets, cert, at)
    at, end = enter(octets, at, end, SET, "the signers")
    at, end = enter(octets, at, end, SEQUENCE, "the signer")
    at = skip(octets, at, end, *BEFORE_ATTRIBUTES)
    start, at = enter(octets, at, end, TAG_0, "the signed attributes")
    attributes = octets[start:at]
    at = skip(octets, at, end, (SEQUENCE, "the signature's algorithm"))
    start, stop = enter(octets, at, end, OCTET_STRING, "the signature")
    # the attributes are signed as a SET (RFC 5652 5.4)
    return Object(cert, der(SET, attributes), octets[start:stop], *content)


def read(octets):
    """The certificate, revocation list or signed object that stands in front of the octets."""
    end = len(octets)
    start, stop = enter(octets, 0, end, SEQUENCE, "a certificate, revocation list or signed object")
    tag, first, _ = header(octets, start, stop)
    if tag == OID:
        return read_object(octets, 0, end)
    if tag == SEQUENCE and octets[first : first + 1] == bytes((TAG_0,)):
        return read_cert(octets, 0, end)
    return read_list(octets, 0, end)


def encoded_key(bits):
    """An RSA key's encoded octets, as verdicts have them, of its bits with the count of unused ones."""
    return der(SEQUENCE, RSA_ALGORITHM + der(BIT_STRING, bits))


def has_identifier(bits, identifier):
    """Whether the key is the one of that identifier; so there is one, unless two have the same SHA-1 digest."""
    return hashlib.sha1(bits[1:]).digest() == identifier


def check_size(bits):
    """Refuses what is no RSA key (RFC 8017 A.1.1) or one that is too large to check signatures with."""
    if bits[:1] != b"\x00":
        raise Malformed("the key isn't one of RSA")
    at, end = enter(bits, 1, len(bits), SEQUENCE, "the key's modulus")
    at, stop = enter(bits, at, end, INTEGER, "the key's modulus")
    if int.from_bytes(bits[at : at + 1], "big") == 0:
        at += 1
    start, exponent_stop = enter(bits, stop, end, INTEGER, "the key's exponent")
    if (stop - at) * 8 > MOST_MODULUS_BITS:
        raise Malformed(f"the key has more than {MOST_MODULUS_BITS:,} bits")
    if int.from_bytes(bits[start : min(exponent_stop, start + 16)], "big").bit_length() > MOST_EXPONENT_BITS:
        raise Malformed(f"the key's exponent has more than {MOST_EXPONENT_BITS} bits")
