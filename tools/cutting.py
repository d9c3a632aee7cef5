"""Writes a bundle again, without some of its objects, or with one of its locators alone."""

from bundles import PRINTABLE, SEQUENCE, Bundle, Der

IA5_STRING = 0x16
# So many octets are copied at a time.
PIECE = 1 << 20


def write_without(path, made, uris):
    """Writes the bundle without the objects at these URIs."""
    rewrite(path, made, None, lambda row: row.of(IA5_STRING).rest().decode("ascii", "replace") not in uris)


def write_with(path, made, name):
    """Writes the bundle with the locator of that name alone."""
    rewrite(path, made, lambda row: row.of(PRINTABLE).rest().decode("ascii", "replace") == name, None)


def rewrite(path, made, is_locator, is_object):
    """Writes the bundle with the locators and the objects that these say yes to; without one of them all stay."""
    octets = Bundle(path).octets
    whole = Der(octets).of(SEQUENCE)
    front = whole.at
    # (version, moment, depth and, of version 1, a flag)
    while whole.tag() != SEQUENCE:
        whole.next()
    pieces = [[(front, whole.at)]]
    for is_kept in (is_locator, is_object):
        pieces += kept_of(whole, is_kept)
    pieces.append([(whole.at, whole.end)])
    with open(made, "xb") as file:
        file.write(header(SEQUENCE, sum(map(size_of, pieces))))
        for spans in pieces:
            write_spans(octets, spans, file)


def kept_of(whole, is_kept):
    """What the next list becomes: its header, and the spans of the rows that stay."""
    start = whole.at
    rows = whole.of(SEQUENCE)
    if is_kept is None:
        return [[(start, whole.at)]]
    spans = list(spans_of(rows, is_kept))
    return [header(SEQUENCE, size_of(spans)), spans]


def spans_of(rows, is_kept):
    """Where the rows stand that stay; rows that follow each other are one span."""
    start = rows.at
    while rows.tag() is not None:
        at = rows.at
        if not is_kept(rows.of(SEQUENCE)):
            if start < at:
                yield start, at
            start = rows.at
    if start < rows.at:
        yield start, rows.at


def size_of(piece):
    """How many octets octets or spans have."""
    return len(piece) if isinstance(piece, bytes) else sum(end - start for start, end in piece)


def write_spans(octets, piece, file):
    if isinstance(piece, bytes):
        file.write(piece)
        return
    for start, end in piece:
        for at in range(start, end, PIECE):
            file.write(octets[at : min(at + PIECE, end)])


def header(tag, size):
    """A tag and a length in DER."""
    if size < 0x80:
        return bytes((tag, size))
    length = size.to_bytes((size.bit_length() + 7) // 8, "big")
    return bytes((tag, 0x80 + len(length))) + length
