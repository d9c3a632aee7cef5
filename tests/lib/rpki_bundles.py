"""Bundles, written and read by the rules of their grammar alone (X.690 clauses 8 and 10, DER), for the questions to the validator.

URIs and moments are judged by rules of their own here, so that tests/lib/rpki_readers.py has them a second time.
"""

from rpki_repositories import MOMENT, tlv

# Bundles, written.


def bundle(locators=(), objects=(), verdicts=(), moment=MOMENT, depth=32, relaxed=None):
    """The octets of these parts, in this order, whether or not they are those of a bundle: of version 1 where it is said whether
    it is relaxed, else of version 0."""
    pairs = lambda tag, rows: tlv(0x30, b"".join(tlv(0x30, tlv(tag, a) + tlv(4, b)) for a, b in rows))
    rows = b"".join(tlv(0x30, b"".join(tlv(4, digest) for digest in row)) for row in verdicts)
    number = depth.to_bytes(depth.bit_length() // 8 + 1, "big", signed=True)
    version = tlv(2, b"\0" if relaxed is None else b"\1")
    flag = b"" if relaxed is None else tlv(1, b"\xff" if relaxed else b"\0")
    members = version + tlv(24, moment) + tlv(2, number) + flag + pairs(19, locators) + pairs(22, objects) + tlv(0x30, rows)
    return tlv(0x30, members)


# Rules.


def is_moment(text):
    if len(text) != 15 or not text[:14].isdigit() or text[14:] != b"Z":
        return False
    year, month, day, hour, minute, second = (int(text[a:b]) for a, b in ((0, 4), (4, 6), (6, 8), (8, 10), (10, 12), (12, 14)))
    return is_date(year, month, day) and hour < 24 and minute < 60 and second < 60


def is_date(year, month, day):
    is_leap = year % 4 == 0 and (year % 100 != 0 or year % 400 == 0)
    days = (31, 29 if is_leap else 28, 31, 30, 31, 30, 31, 31, 30, 31, 30, 31)
    return 1 <= month <= 12 and 1 <= day <= days[month - 1]


def uri_kind(text):
    """`rsync`, `https` or None: printable octets without a space, a host, and for rsync a module."""
    if any(not 0x21 <= octet <= 0x7E for octet in text):
        return None
    if text[:8].lower() == b"rsync://":
        host, slash, path = text[8:].partition(b"/")
        return "rsync" if host and slash and path.split(b"/")[0] else None
    if text[:8].lower() == b"https://":
        return "https" if text[8:].split(b"/")[0] else None
    return None


def lookup_key(uri):
    host = uri[8:].split(b"/")[0]
    return uri[:8].lower() + host.lower() + uri[8 + len(host) :]


def is_key(text):
    return uri_kind(text) is not None and lookup_key(text) == text


# The characters of a PrintableString but the space (X.680 clause 41).
NAME = set(b"ABCDEFGHIJKLMNOPQRSTUVWXYZabcdefghijklmnopqrstuvwxyz0123456789'()+,-./:=?")


def ascends(rows):
    return all(a < b for a, b in zip(rows, rows[1:]))


def is_lawful(locators, objects, verdicts, moment, depth):
    names, uris = [name for name, _ in locators], [uri for uri, _ in objects]
    return (
        is_moment(moment)
        and 1 <= depth <= 32
        and all(name and set(name) <= NAME for name in names)
        and all(is_key(uri) for uri in uris)
        and all(len(row) == 3 and all(len(digest) == 32 for digest in row) for row in verdicts)
        and ascends(names)
        and ascends(uris)
        and ascends([b"".join(row) for row in verdicts])
    )


# Bundles, read.


def take(octets, tag):
    """The content of the value in front, with the shortest length, and what is behind it."""
    if len(octets) < 2 or octets[0] != tag:
        raise ValueError
    size, at = octets[1], 2
    if size >= 128:
        at += size - 128
        size = int.from_bytes(octets[2:at], "big")
        if at not in (3, 4, 5, 6) or len(octets) < at:
            raise ValueError
    if tlv(tag, b"\0" * min(size, 2**20))[:at] != octets[:at] or len(octets) < at + size:
        raise ValueError
    return octets[at : at + size], octets[at + size :]


def members(octets, *tags):
    """The contents of values with these tags, and nothing behind them."""
    contents = []
    for tag in tags:
        content, octets = take(octets, tag)
        contents.append(content)
    if octets:
        raise ValueError
    return contents


def entries(octets, *tags):
    rows = []
    while octets:
        content, octets = take(octets, 0x30)
        rows.append(members(content, *tags))
    return rows


def flag_of(version, flags):
    """Whether the bundle is relaxed, which version 1 says and version 0 doesn't."""
    if version == b"\0" and not flags:
        return None
    if version == b"\1" and flags in ([b"\0"], [b"\xff"]):
        return flags == [b"\xff"]
    raise ValueError


def read(octets):
    """The parts of the bundle that the octets are, or None."""
    try:
        (whole,) = members(octets, 0x30)
        kinds = (2, 24, 2, 1, 0x30, 0x30, 0x30) if take(whole, 2)[0] == b"\1" else (2, 24, 2, 0x30, 0x30, 0x30)
        version, moment, depth, *flags, locators, objects, verdicts = members(whole, *kinds)
        relaxed = flag_of(version, flags)
        parts = entries(locators, 19, 4), entries(objects, 22, 4), entries(verdicts, 4, 4, 4), moment
    except ValueError:
        return None
    if len(depth) != 1 or not is_lawful(*parts, depth[0]):
        return None
    return (*parts, depth[0], relaxed)
