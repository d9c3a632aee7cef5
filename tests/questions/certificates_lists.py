"""Questions about revocation lists and stores of them, for tests/questions/certificates.py (RFC 5280 5.1, RFC 6487 5)."""

import calendar
import random
import re

from certificates_signed import RSA, SHA256_RSA, has_null
from certificates_x690 import Refused, bits_of, content_of, need, parts_of, value
from rpki_repositories import integer, seq, tlv

rng = random.Random(6487)

AUTHORITY, NUMBER, COMMON = (bytes.fromhex(digits) for digits in ("551d23", "551d14", "550403"))
OTHER = bytes.fromhex("551d15")
KEY = bytes(range(1, 21))
THIS, NEXT = tlv(23, b"261123000000Z"), tlv(23, b"261124000000Z")


def serial_of(item):
    content = content_of(item, 2)
    need(content and not (len(content) > 1 and content[0] in (0, 255) and content[0] >> 7 == content[1] >> 7))
    n = int.from_bytes(content, "big", signed=True)
    need(0 <= n < 2**160)
    return n


def moment_of(item):
    """UTCTime, of the years 1950 to 2049, or GeneralizedTime (RFC 5280 4.1.2.5)."""
    text = item.content
    need(item.tag in ((0, 23), (0, 24)) and text is not None)
    need(re.fullmatch(rb"[0-9]{12}Z" if item.tag == (0, 23) else rb"[0-9]{14}Z", text))
    if item.tag == (0, 23):
        text = (b"19" if text >= b"5" else b"20") + text
    year, month, day, hour, minute, second = (int(text[a:b]) for a, b in ((0, 4), (4, 6), (6, 8), (8, 10), (10, 12), (12, 14)))
    need(1 <= month <= 12 and 1 <= day <= calendar.monthrange(year or 400, month)[1] and hour < 24 and minute < 60 and second < 60)
    return text.decode()


def name_of(item):
    for part in parts_of(item, 16):
        for attribute in parts_of(part, 17):
            pair = parts_of(attribute, 16)
            need(len(pair) == 2)
            kind = content_of(pair[0], 6)
            need(kind and kind[-1] < 128)
    return item.octets


def entry_of(item):
    """The serial number and the moment."""
    parts = parts_of(item, 16)
    need(len(parts) == 2)
    return serial_of(parts[0]), moment_of(parts[1])


def extension_of(item):
    parts = parts_of(item, 16)
    need(2 <= len(parts) <= 3)
    kind = content_of(parts[0], 6)
    if len(parts) == 3:
        need(content_of(parts[1], 1) in (b"\0", b"\xff"))
    return kind, content_of(parts[-1], 4)


def extensions_of(item):
    need(item.tag == (2, 0) and item.parts is not None and len(item.parts) == 1)
    found = {}
    for part in parts_of(item.parts[0], 16):
        kind, content = extension_of(part)
        need(kind in (AUTHORITY, NUMBER) and kind not in found)
        inner, _ = value(content, "der")
        if kind == NUMBER:
            found[kind] = serial_of(inner)
        else:
            (key,) = [*parts_of(inner, 16), None][:1] if len(parts_of(inner, 16)) == 1 else [None]
            need(key is not None and key.tag == (2, 0) and key.content is not None and len(key.content) == 20)
            found[kind] = key.content
    need(len(found) == 2)
    return found[AUTHORITY], found[NUMBER]


def fields_of(item):
    """What is signed of a list."""
    fields = parts_of(item, 16)
    need(6 <= len(fields) <= 7 and serial_of(fields[0]) == 1)
    null = has_null(fields[1], [SHA256_RSA])
    issuer, this, following = name_of(fields[2]), moment_of(fields[3]), moment_of(fields[4])
    entries = [entry_of(part)[0] for part in parts_of(fields[5], 16)] if len(fields) == 7 else []
    key, number = extensions_of(fields[-1])
    return null, this, following, number, key, issuer, entries


def list_of(data, mode="der"):
    item, _ = value(data, mode)
    parts = parts_of(item, 16)
    need(len(parts) == 3)
    fields = fields_of(parts[0])
    need(has_null(parts[1], [SHA256_RSA]) == fields[0])
    return *fields, bits_of(parts[2], mode)[1:]


def fields_told(null, this, following, number, key, issuer, entries):
    words = ["true" if null else "false", this, following, number, key.hex(), "x" + issuer.hex(), len(entries), *entries]
    return " ".join(map(str, words))


def told(*fields):
    *fields, signature = fields
    return f"{fields_told(*fields)} x{signature.hex()}"


def answer_of(data):
    try:
        return told(*list_of(data))
    except Refused:
        return "refused"


# Writers, each part of which may be given as other octets.

ALGORITHM = seq(tlv(6, SHA256_RSA), tlv(5, b""))
PLAIN = seq(tlv(6, SHA256_RSA))
ISSUER = seq(tlv(0x31, seq(tlv(6, COMMON), tlv(19, b"ca"))))
SIGNATURE = tlv(3, b"\0\xaa\xbb")


def extension(kind, content, critical=b""):
    return seq(tlv(6, kind), critical, tlv(4, content))


AKI, CRL_NUMBER = extension(AUTHORITY, seq(tlv(0x80, KEY))), extension(NUMBER, integer(3))
FIELDS = {"version": integer(1), "inner": ALGORITHM, "issuer": ISSUER, "this": THIS, "next": NEXT, "entries": b"", "extensions": tlv(0xA0, seq(AKI, CRL_NUMBER)), "more": b""}


def crl(outer=ALGORITHM, signature=SIGNATURE, after=b"", **fields):
    return seq(seq(*{**FIELDS, **fields}.values()), outer, signature, after)


def entry(serial, date=THIS, more=b""):
    return seq(integer(serial) if isinstance(serial, int) else serial, date, more)


def extended(*extensions):
    return crl(extensions=tlv(0xA0, seq(*extensions)))


def ask(q, data, expected=None):
    answer = answer_of(data)
    assert expected is None or answer == expected, (data.hex(), answer, expected)
    q.ask(answer, "crl", "read", data.hex())


def cut_and_changed(q, data):
    ask(q, data)
    for end in range(1, len(data)):
        ask(q, data[:end], "refused")
    for at in range(len(data)):
        for bit in rng.sample([1, 2, 4, 8, 16, 32, 64, 128], 3):
            ask(q, data[:at] + bytes([data[at] ^ bit]) + data[at + 1 :])


def fields(q):
    """Each field in turn in other forms, absent and twice."""
    plain = told(True, "20261123000000", "20261124000000", 3, KEY, ISSUER, [], b"\xaa\xbb").replace("000000 ", "000000Z ")
    ask(q, crl(), plain)
    ask(q, crl() + b"\0\xff", plain)
    for name in FIELDS:
        if name not in ("entries", "more"):
            ask(q, crl(**{name: b""}), "refused")
            ask(q, crl(**{name: FIELDS[name] * 2}), "refused")
    for wrong in (integer(0), integer(2), tlv(2, b"\0\1"), tlv(0xA0, integer(1)), tlv(10, b"\1")):
        ask(q, crl(version=wrong), "refused")
    for inner, outer in ((PLAIN, ALGORITHM), (ALGORITHM, PLAIN), (seq(tlv(6, RSA), tlv(5, b"")),) * 2, (ALGORITHM, seq(tlv(6, RSA), tlv(5, b"")))):
        ask(q, crl(inner=inner, outer=outer), "refused")
    ask(q, crl(inner=PLAIN, outer=PLAIN), plain.replace("true", "false", 1))
    for wrong in (tlv(3, b""), tlv(3, b"\1"), tlv(3, b"\x08\0"), tlv(3, b"\1\1"), tlv(4, b"\0\1"), b"", SIGNATURE * 2):
        ask(q, crl(signature=wrong), "refused")
    for right in (tlv(3, b"\0"), tlv(3, b"\4\xf0")):
        ask(q, crl(signature=right))
    ask(q, crl(after=tlv(5, b"")), "refused")
    ask(q, crl(more=tlv(5, b"")), "refused")
    ask(q, crl(more=tlv(0xA1, b"")), "refused")
    for date in (b"261123000000Z", b"500101000000Z", b"491231235959Z", b"000229000000Z", b"010229000000Z", b"2611230000Z", b"261123000000+0000", b"261123240000Z",
                 b"261123236000Z", b"261123235960Z", b"20261123000000Z", b"20500101000000Z", b"19500101000000Z", b"00000229000000Z", b"20261123000000.5Z", b""):
        for tag in (23, 24, 22):
            ask(q, crl(this=tlv(tag, date)))
            ask(q, crl(next=tlv(tag, date)))
            ask(q, crl(entries=seq(entry(12, tlv(tag, date)))))
    ask(q, crl(this=NEXT, next=THIS))
    for issuer in (seq(), seq(tlv(0x31, b"")), seq(tlv(0x31, seq(tlv(6, COMMON), tlv(5, b"")))), seq(tlv(0x31, seq(tlv(6, COMMON), seq(integer(1)))))):
        ask(q, crl(issuer=issuer), plain.replace(ISSUER.hex(), issuer.hex()))
    for issuer in (seq(seq()), seq(tlv(0x31, seq())), seq(tlv(0x31, seq(tlv(6, COMMON)))), seq(tlv(0x31, seq(tlv(6, b""), tlv(5, b"")))), tlv(0x31, b""),
                   seq(tlv(0x31, seq(tlv(6, b"\x80"), tlv(5, b"")))), seq(tlv(0x31, seq(tlv(6, COMMON), tlv(5, b""), tlv(5, b"")))), seq(tlv(0x31, tlv(6, COMMON)))):
        ask(q, crl(issuer=issuer), "refused")
    deep = b""
    for _ in range(10000):
        deep = tlv(0x30, deep)
    issuer = seq(tlv(0x31, seq(tlv(6, COMMON), deep)))
    q.ask(plain.replace(ISSUER.hex(), issuer.hex()), "crl", "read", crl(issuer=issuer).hex())
    q.ask("refused", "crl", "read", crl(entries=deep).hex())
    q.ask("refused", "crl", "read", crl(extensions=deep).hex())
    q.ask("refused", "crl", "read", "3080*10000")


def entries(q):
    some = crl(entries=seq(entry(12), entry(42)))
    ask(q, some, "true 20261123000000Z 20261124000000Z 3 %s x%s 2 12 42 xaabb" % (KEY.hex(), ISSUER.hex()))
    none = crl(entries=seq())
    ask(q, none, "true 20261123000000Z 20261124000000Z 3 %s x%s 0 xaabb" % (KEY.hex(), ISSUER.hex()))
    for wrong in (entry(12, more=integer(1)), entry(12, more=seq()), entry(12, b""), entry(b""), entry(tlv(2, b"")), entry(tlv(2, b"\xff")), entry(tlv(2, b"\0\1")),
                  entry(2**160), tlv(0x31, integer(12) + THIS), integer(12), tlv(5, b""), seq(THIS, integer(12))):
        ask(q, crl(entries=seq(wrong)), "refused")
        ask(q, crl(entries=seq(entry(1), wrong)), "refused")
        ask(q, crl(entries=seq(wrong, entry(1))), "refused")
    for right in ([2**160 - 1], [0], [42, 12, 42], [3, 2, 1], [5, 5, 5]):
        ask(q, crl(entries=seq(*map(entry, right))))
    ask(q, crl(entries=tlv(0x31, entry(12))), "refused")
    ask(q, crl(entries=seq(entry(12)) * 2), "refused")
    again = [crl(), none, some, crl(entries=seq(*map(entry, [42, 12, 42]))), crl(inner=PLAIN, outer=PLAIN), crl(signature=tlv(3, b"\4\xf0"))]
    for data in again:
        q.ask("true", "crl", "again", data.hex())
    for moment in ("20261123235959Z", "20261124000000Z", "20261124000001Z", "99991231235959Z", "00000101000000Z"):
        q.ask("true" if moment > "20261124000000Z" else "false", "crl", "stale", crl().hex(), moment)


def extensions(q):
    good = answer_of(crl())
    for pair in ((CRL_NUMBER, AKI), (extension(AUTHORITY, seq(tlv(0x80, KEY)), tlv(1, b"\xff")), CRL_NUMBER), (AKI, extension(NUMBER, integer(3), tlv(1, b"\0"))),
                 (extension(AUTHORITY, seq(tlv(0x80, KEY)) + b"\0\xff"), CRL_NUMBER), (AKI, extension(NUMBER, integer(3) + b"\xff"))):
        ask(q, extended(*pair), good)
    ask(q, extended(AKI), "refused")
    ask(q, extended(CRL_NUMBER), "refused")
    ask(q, extended(), "refused")
    ask(q, crl(extensions=tlv(0xA0, b"")), "refused")
    ask(q, crl(extensions=tlv(0xA1, seq(AKI, CRL_NUMBER))), "refused")
    ask(q, crl(extensions=tlv(0xA0, seq(AKI, CRL_NUMBER) * 2)), "refused")
    ask(q, crl(extensions=tlv(0xA0, AKI + CRL_NUMBER)), "refused")
    for third in (AKI, CRL_NUMBER, extension(OTHER, b""), extension(OTHER, tlv(10, b"\1")), extension(OTHER, tlv(10, b"\1"), tlv(1, b"\xff")), tlv(5, b""), seq()):
        for place in range(3):
            both = [AKI, CRL_NUMBER]
            both.insert(place, third)
            ask(q, extended(*both), "refused")
        ask(q, extended(AKI, third), good if third == CRL_NUMBER else "refused")
        ask(q, extended(third, CRL_NUMBER), good if third == AKI else "refused")
    for content in (b"", seq(), seq(tlv(0x80, KEY[1:])), seq(tlv(0x80, KEY + b"\0")), seq(tlv(0x81, KEY)), seq(tlv(4, KEY)), seq(tlv(0x80, KEY) * 2), tlv(0x80, KEY),
                    seq(tlv(0x80, KEY), tlv(0x82, b"\1")), seq(tlv(0xA0, tlv(4, KEY))), tlv(0x31, tlv(0x80, KEY)), tlv(4, KEY)):
        ask(q, extended(extension(AUTHORITY, content), CRL_NUMBER), "refused")
    for content in (b"", tlv(2, b""), tlv(2, b"\xff"), tlv(2, b"\0\1"), integer(2**160), tlv(10, b"\1"), seq(integer(3))):
        ask(q, extended(AKI, extension(NUMBER, content)), "refused")
    for number in (0, 2**64, 2**160 - 1):
        ask(q, extended(AKI, extension(NUMBER, integer(number))))
    for critical in (tlv(1, b"\1"), tlv(1, b""), tlv(1, b"\xff\xff"), tlv(1, b"\xff") * 2, tlv(2, b"\xff"), tlv(5, b"")):
        ask(q, extended(extension(AUTHORITY, seq(tlv(0x80, KEY)), critical), CRL_NUMBER), "refused")
    ask(q, extended(seq(tlv(6, AUTHORITY)), CRL_NUMBER), "refused")
    ask(q, extended(seq(tlv(4, seq(tlv(0x80, KEY))), tlv(6, AUTHORITY)), CRL_NUMBER), "refused")
    ask(q, extended(seq(tlv(6, AUTHORITY), tlv(4, seq(tlv(0x80, KEY))), tlv(5, b"")), CRL_NUMBER), "refused")


def has(q, serials, serial):
    """Whether a serial number is on the list, and its place among those that are kept aside, each once, ascending."""
    kept = sorted(set(serials))
    place = kept.index(serial) if serial in kept else "-"
    held = "true" if serial in kept else "false"
    data = crl(entries=seq(*map(entry, serials)) if serials else b"")
    q.ask(f"{held} - true {held} {place} true", "crl", "has", data.hex(), serial.to_bytes(20, "big").hex(), str(len(kept).bit_length()))


def memberships(q):
    for serial in (12, 13, 42, 0, 2**160 - 1):
        has(q, [12, 42], serial)
        has(q, [], serial)
    for serial in (12, 42, 13, 41, 43):
        has(q, [42, 12, 42], serial)
    row = [3 * at for at in range(500)]
    rng.shuffle(row)
    for serial in (0, 1, 3, 747, 748, 1497, 1498, 1500, 2**159):
        has(q, row, serial)
    for _ in range(300):
        serials = [rng.choice([rng.randrange(12), rng.randrange(2**64), 2**160 - 1 - rng.randrange(4), 2**128 + rng.randrange(-2, 3)]) for _ in range(rng.randrange(12))]
        has(q, serials, rng.choice([*serials, rng.randrange(12), 2**128, 2**160 - 1]))


def stores(q):
    """Lists numbered from 1 on; the second has no serial 12. Which one is found, whether it has 12, and where, if kept aside; in
    the store, and in its clone."""
    uris = ["rsync://h/m/a.crl", "rsync://h/m/b.crl", "rsync://h/m/A.crl", "RSYNC://h/m/a.crl", "rsync://H/m/a.crl"]
    lists = [crl(entries=seq(*map(entry, serials)), extensions=tlv(0xA0, seq(AKI, extension(NUMBER, integer(at + 1))))) for at, serials in enumerate(([12, 42], [42], [5, 3, 12]))]
    rows = [(), (0,), (0, 0), (0, 0, 0), (0, 1, 0), (1, 0, 0), (0, 1, 2), (1, 1, 0)]
    for row in rows:
        pairs = [word for at, which in enumerate(row) for word in (uris[which], lists[at].hex())]
        for kept_from in (0, 1, 2, 99):
            for asked, uri in enumerate(uris):
                answer = "none"
                if asked in row:  # the same text alone
                    first = row.index(asked)
                    held, place = (("true", 0), ("false", "-"), ("true", 2))[first]
                    answer = f"{first + 1} {held} {place if first >= kept_from else '-'}"
                q.ask(f"{answer} {answer}", "store", str(kept_from), uri, *pairs)


def lists(q):
    """Asks all questions."""
    fields(q)
    entries(q)
    extensions(q)
    memberships(q)
    stores(q)
    cut_and_changed(q, crl(entries=seq(entry(12), entry(42, tlv(24, b"20261123000000Z")))))
    data = crl(entries=seq(entry(12)))
    for at in range(2, len(data) - 1):
        for length in ("84ffffffff", "80", "8101", "8500000000ff"):
            changed = data[:at] + bytes.fromhex(length) + data[at + 1 :]
            ask(q, changed)
