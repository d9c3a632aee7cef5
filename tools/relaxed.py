"""Signed objects in BER, read to the same fields as those in DER (X.690 8).

Of BER, a value may say its length in more octets than it needs, or not at all and end with two zeros; a string may be made
of pieces. What is signed stays as it is spelled. What is in DER is read by `signed`, and only where that refuses it, here.
"""

import signed
from signed import BIT_STRING, BOOLEAN, INTEGER, OCTET_STRING, OCTETS_0, OID, SEQUENCE, SET, TAG_0, TAG_3, Malformed

# The bit of an identifier octet that says that values are inside.
CONSTRUCTED = 0x20
# So many values may stand in each other.
MOST_LEVELS = 64


def header(octets, at, end):
    """Of the value at `at`: its tag, where its content starts, and where that ends or None."""
    start = at + 2
    if start > end:
        raise Malformed("the octets end within a value")
    tag, length = octets[at], octets[at + 1]
    if tag & 0x1F == 0x1F:
        raise Malformed("a tag's number is above 30")
    if length == 0x80:
        if not tag & CONSTRUCTED:
            raise Malformed("a value with octets has no length")
        return tag, start, None
    if length > 0x80:
        count = length - 0x80
        if count > 4 or start + count > end:
            raise Malformed("a length has more than four octets")
        start += count
        length = int.from_bytes(octets[at + 2 : start], "big")
    if start + length > end:
        raise Malformed("a value is longer than the octets")
    return tag, start, start + length


def find_ends(octets, at, end, ends):
    """Puts to `ends`, by where their contents start, where the values at `at` end that two zeros follow, and such values
    in them; so each is looked for once, however many stand in each other."""
    starts = [at]
    while True:
        if at + 2 <= end and octets[at : at + 2] == b"\x00\x00":
            ends[starts.pop()] = at
            if not starts:
                return
            at += 2
            continue
        _, start, stop = header(octets, at, end)
        if stop is None:
            starts.append(start)
            if len(starts) > MOST_LEVELS:
                raise Malformed(f"more than {MOST_LEVELS} values stand in each other")
        at = start if stop is None else stop


class Values:
    """The values from `at` to `end`, one after the other; `ends` has where values end that don't say it themselves."""

    def __init__(self, octets, at, end, ends):
        self.octets, self.at, self.end, self.ends = octets, at, end, ends

    def is_at_end(self):
        return self.at >= self.end

    def tag(self):
        return self.octets[self.at] if self.at < self.end else None

    def next(self, wanted, what):
        """The next value's content, as a place."""
        tag, start, stop = header(self.octets, self.at, self.end)
        if tag != wanted:
            raise Malformed(what + " is missing")
        if stop is None:
            if start not in self.ends:
                find_ends(self.octets, start, self.end, self.ends)
            stop = self.ends[start]
            self.at = stop + 2
        else:
            self.at = stop
        return start, stop

    def inside(self, wanted, what):
        """The values in the next one."""
        return Values(self.octets, *self.next(wanted, what), self.ends)

    def skip(self, *values):
        for wanted, what in values:
            self.next(wanted, what)

    def pieces(self, tag, inner, what, level=0):
        """The contents of a string's pieces, of which it is one itself where it isn't made of any."""
        if self.tag() == tag | CONSTRUCTED and level < MOST_LEVELS:
            pieces = self.inside(tag | CONSTRUCTED, what)
            while not pieces.is_at_end():
                yield from pieces.pieces(inner, inner, what, level + 1)
        else:
            start, stop = self.next(tag, what)
            yield self.octets[start:stop]

    def string(self, tag, what):
        """The octets of an OCTET STRING, with that tag."""
        return b"".join(self.pieces(tag, OCTET_STRING, what))

    def bits(self, what):
        """The octets of a BIT STRING, after the count of unused bits, which the last piece has (X.690 8.6)."""
        pieces = list(self.pieces(BIT_STRING, BIT_STRING, what))
        if not pieces or not all(pieces):
            raise Malformed(what + " is missing")
        return pieces[-1][:1] + b"".join(piece[1:] for piece in pieces)


def identifiers(extensions):
    """The subject's and the authority's key identifier among extensions, whose own octets are in DER."""
    subject = authority = None
    while not extensions.is_at_end():
        extension = extensions.inside(SEQUENCE, "an extension")
        start, stop = extension.next(OID, "an extension's identifier")
        kind = b"\x06\x03" + extension.octets[start:stop]
        if extension.tag() == BOOLEAN:
            extension.next(BOOLEAN, "whether it is critical")
        octets = extension.string(OCTET_STRING, "an extension's value")
        if kind == signed.SUBJECT_KEY_IDENTIFIER:
            subject = signed.identifier_at(octets, 0, len(octets), OCTET_STRING, "the subject key identifier")
        elif kind == signed.AUTHORITY_KEY_IDENTIFIER:
            start, stop = signed.enter(octets, 0, len(octets), SEQUENCE, "the authority key identifier")
            authority = signed.identifier_at(octets, start, stop, OCTETS_0, "the authority key identifier")
    return subject, authority


def read_cert(values):
    """The certificate that is next (RFC 5280 4.1)."""
    cert = values.inside(SEQUENCE, "the certificate")
    start = cert.at
    content = cert.inside(SEQUENCE, "the certificate's content")
    message = cert.octets[start : cert.at]
    cert.skip((SEQUENCE, "the signature's algorithm"))
    signature = cert.bits("the signature")[1:]
    content.skip(*signed.BEFORE_KEY)
    key = content.inside(SEQUENCE, "the key")
    start, stop = key.inside(SEQUENCE, "the key's algorithm").next(OID, "the key's algorithm")
    bits = key.bits("the key's bits")
    extensions = content.inside(TAG_3, "the extensions").inside(SEQUENCE, "the extensions")
    subject, authority = identifiers(extensions)
    if subject is None:
        raise Malformed("the subject key identifier is missing")
    if signed.der(OID, cert.octets[start:stop]) != signed.RSA_ENCRYPTION:
        bits = None
    return signed.Cert(subject, authority or subject, bits, message, signature)


def read_content(values):
    """The type and the octets of a signed object's content (RFC 5652 5.2), each None where they can't be read."""
    try:
        start, stop = values.next(OID, "the content's type")
        octets = values.inside(TAG_0, "the content").string(OCTET_STRING, "the content")
        return values.octets[start:stop], octets
    except Malformed:
        return None, None


def read_object(octets):
    """The signed object in front of the octets (RFC 5652 3 and 5, RFC 6488 2)."""
    info = Values(octets, 0, len(octets), {}).inside(SEQUENCE, "the signed object")
    start, stop = info.next(OID, "the object's type")
    if signed.der(OID, octets[start:stop]) != signed.SIGNED_DATA:
        raise Malformed("the object's type isn't that of signed data")
    data = info.inside(TAG_0, "the signed data").inside(SEQUENCE, "the signed data")
    data.skip(*signed.BEFORE_CONTENT)
    content = read_content(data.inside(SEQUENCE, "the content"))
    cert = read_cert(data.inside(TAG_0, "the object's certificate"))
    signer = data.inside(SET, "the signers").inside(SEQUENCE, "the signer")
    signer.skip((INTEGER, "the signer's version"))
    signer.string(OCTETS_0, "the signer's key identifier")
    signer.skip((SEQUENCE, "the digest's algorithm"))
    start, stop = signer.next(TAG_0, "the signed attributes")
    signer.skip((SEQUENCE, "the signature's algorithm"))
    signature = signer.string(OCTET_STRING, "the signature")
    return signed.Object(cert, signed.der(SET, octets[start:stop]), signature, *content)


def read(octets):
    """What `signed.read` reads, and signed objects in BER."""
    try:
        return signed.read(octets)
    except Malformed:
        try:
            return read_object(octets)
        except Malformed:
            pass
        raise
