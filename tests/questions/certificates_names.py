"""Questions about names and serial numbers, for tests/questions/certificates.py.

What octets begin with is compared with X.501 9.2 (Name, a SEQUENCE OF SET OF SEQUENCE of a type and a value), and with RFC 6487
4.4 for inspection: one commonName, at most one serialNumber, nothing else, each a primitive PrintableString; where not strict, and
for routers, a primitive UTF8String too.
"""

import itertools
import random

from certificates_x690 import MODES, Refused, content_of, need, parts_of, value
from rpki_repositories import seq, tlv

rng = random.Random(2811)

COMMON, SERIAL, COUNTRY = bytes([6, 3, 85, 4, 3]), bytes([6, 3, 85, 4, 5]), bytes([6, 3, 85, 4, 6])
PRINTABLE = b"ABCDEFGHIJKLMNOPQRSTUVWXYZabcdefghijklmnopqrstuvwxyz0123456789 '()+,-./:=?"


def attributes(mode, text):
    """The attributes of the name in front of the text, and how many octets it has."""
    name, _ = value(text, mode)
    found = []
    for relative in parts_of(name, 16):
        for attribute in parts_of(relative, 17):
            fields = parts_of(attribute, 16)
            need(len(fields) == 2)
            kind = content_of(fields[0], 6)
            need(kind and kind[-1] < 128)  # 8.19
            found.append((kind, fields[1]))
    return found, len(name.octets)


def is_text(item, loose):
    if item.content is None:
        return False
    if item.tag == (0, 19):
        return all(octet in PRINTABLE for octet in item.content)
    if item.tag != (0, 12) or not loose:
        return False
    try:
        item.content.decode("utf-8")
    except UnicodeDecodeError:
        return False
    return True


def passes(found, loose):
    kinds = sorted(kind for kind, _ in found)
    wanted = kinds in ([COMMON[2:]], [COMMON[2:], SERIAL[2:]])
    return wanted and all(is_text(item, loose) for _, item in found)


def many(*parts):
    return tlv(49, b"".join(parts))


def printable(text):
    return tlv(19, text)


def unicode(text):
    return tlv(12, text)


def of(kind, value):
    return seq(kind, value)


def name_of(*attributes):
    return seq(*(many(attribute) for attribute in attributes))


def good_names():
    common, serial = of(COMMON, printable(b"a1b2")), of(SERIAL, printable(b"77"))
    return [
        name_of(common),
        name_of(common, serial),
        name_of(serial, common),
        seq(many(common, serial)),
        seq(many(serial, common)),
        seq(many(), many(common), many()),
        name_of(of(COMMON, printable(b""))),
        name_of(of(COMMON, printable(PRINTABLE))),
        name_of(of(COMMON, printable(b"x" * 300)), serial),
        name_of(of(COMMON, printable(b"A91A73810000"))),
    ]


def loose_names():
    """Names that pass where not strict alone."""
    serial = of(SERIAL, printable(b"7"))
    return [
        name_of(of(COMMON, unicode("Zürich".encode()))),
        name_of(of(COMMON, unicode(b"")), serial),
        name_of(of(COMMON, printable(b"a")), of(SERIAL, unicode("€\U0001f600".encode()))),
        name_of(of(COMMON, unicode(b"a@b*c_d&e\0\x7f"))),
    ]


def refused_names():
    """Names of X.501 that no inspection passes."""
    common, serial = of(COMMON, printable(b"a")), of(SERIAL, printable(b"7"))
    return [
        seq(),  # no attribute
        seq(many()),
        name_of(serial),  # no commonName
        name_of(common, common),
        seq(many(common, common)),
        name_of(common, serial, serial),
        name_of(common, serial, common),
        name_of(serial, serial),
        name_of(common, of(COUNTRY, printable(b"NL"))),  # another attribute
        name_of(of(COUNTRY, printable(b"NL"))),
        name_of(of(b"\x06\x03\x55\x04\x0a", printable(b"x")), common),
        name_of(of(b"\x06\x02\x55\x04", printable(b"x"))),
        name_of(of(b"\x06\x04\x55\x04\x03\x00", printable(b"x"))),
        name_of(of(b"\x06\x03\x55\x04\x7f", printable(b"x"))),
        name_of(of(COMMON, printable(b"a*b"))),  # no PrintableString
        name_of(of(COMMON, printable(b"a@b"))),
        name_of(of(COMMON, printable(b"a_b"))),
        name_of(of(COMMON, printable(b"a&b"))),
        name_of(of(COMMON, printable(b"a\0"))),
        name_of(of(COMMON, printable(b"\x80"))),
        name_of(of(COMMON, printable("ü".encode()))),
        name_of(common, of(SERIAL, printable(b"#"))),
        name_of(of(COMMON, unicode(b"\xff"))),  # no UTF-8
        name_of(of(COMMON, unicode(b"\xc0\x80"))),
        name_of(of(COMMON, unicode(b"\xed\xa0\x80"))),
        name_of(of(COMMON, unicode(b"\xf4\x90\x80\x80"))),
        name_of(of(COMMON, unicode(b"a\xe2\x82"))),
        name_of(of(COMMON, tlv(22, b"a"))),  # IA5String, TeletexString, BMPString, OCTET STRING, context-specific
        name_of(of(COMMON, tlv(20, b"a"))),
        name_of(of(COMMON, tlv(30, b"\0a"))),
        name_of(of(COMMON, tlv(4, b"a"))),
        name_of(of(COMMON, tlv(0x93, b"a"))),
        name_of(of(COMMON, tlv(0x53, b"a"))),
        name_of(of(COMMON, tlv(5, b""))),
        name_of(of(COMMON, tlv(51, printable(b"a")))),  # constructed
        name_of(of(COMMON, tlv(51, tlv(4, b"a")))),
        name_of(of(COMMON, tlv(44, unicode(b"a")))),
        name_of(of(COMMON, seq(printable(b"a")))),
        name_of(of(COMMON, b"\x1f\x1f\x01a")),  # high tags
        name_of(of(COMMON, b"\xbf\x81\x00\x03" + printable(b"a"))),
        name_of(of(COMMON, b"\x9f\xff\xff\x7f\x00")),
    ]


def no_names():
    """Octets in front of which no name stands."""
    common = of(COMMON, printable(b"a"))
    return [
        b"",
        b"\x30",
        b"\x30\x80",
        b"\0\0",
        common[2:],
        many(common),
        seq(common),
        seq(COMMON, printable(b"a")),
        seq(seq(common)),
        seq(many(many(common))),
        seq(many(COMMON + printable(b"a"))),
        seq(many(tlv(49, COMMON + printable(b"a")))),
        seq(many(common), common),
        seq(many(common), b"\x05\x00"),
        seq(many(common, b"\x05\x00")),
        seq(many(common), b"\0\0"),
        seq(many(common, b"\0\0")),
        tlv(16, many(common)),
        seq(tlv(17, common)),
        seq(many(tlv(16, COMMON + printable(b"a")))),
        tlv(0xA0, many(common)),
        seq(tlv(0xB1, common)),
        name_of(seq()),
        name_of(seq(COMMON)),
        name_of(seq(printable(b"a"))),
        name_of(seq(printable(b"a"), COMMON)),
        name_of(seq(COMMON, COMMON[:-1])),
        name_of(seq(COMMON, printable(b"a"), printable(b"b"))),
        name_of(seq(COMMON, printable(b"a"), b"\0\0")),
        name_of(seq(COMMON, b"\0\0")),
        name_of(seq(COMMON, b"\x20\0")),
        name_of(seq(b"\x06\x00", printable(b"a"))),
        name_of(seq(b"\x06\x03\x55\x04\x83", printable(b"a"))),
        name_of(seq(b"\x26\x05" + COMMON, printable(b"a"))),
        name_of(seq(b"\x0d\x03\x55\x04\x03", printable(b"a"))),
        name_of(seq(COMMON, b"\x1f\x1e\x00")),  # a low tag in the form of high ones, padded, or too high
        name_of(seq(COMMON, b"\x1f\x80\x1f\x00")),
        name_of(seq(COMMON, b"\x9f\x81\x80\x80\x00\x00")),
        name_of(seq(COMMON, b"\x13\x85\x00\x00\x00\x00\x01a")),
        name_of(seq(COMMON, b"\x13\xff")),
        name_of(seq(COMMON, b"\x33\x03" + printable(b"ab"))),
    ]


def spelled_otherwise():
    """Names whose lengths are those of BER or of CER."""
    wrap = lambda tag, content: bytes([tag, 128]) + content + b"\0\0"
    fields = COMMON + printable(b"a1")
    attribute = seq(fields)
    return [
        wrap(48, wrap(49, wrap(48, fields))),
        wrap(48, wrap(49, wrap(48, fields)) + wrap(49, wrap(48, SERIAL + printable(b"9")))),
        wrap(48, wrap(49, attribute)),
        wrap(48, many(attribute)),
        seq(wrap(49, attribute)),
        seq(many(wrap(48, fields))),
        wrap(48, b""),
        wrap(48, wrap(49, b"")),
        wrap(48, wrap(49, wrap(48, COMMON + wrap(51, tlv(4, b"a"))))),
        wrap(48, wrap(49, wrap(48, COMMON + unicode(b"a")))),
        wrap(48, wrap(49, wrap(48, fields)))[:-1],
        wrap(48, wrap(49, wrap(48, fields)))[:-2],
        b"\x30\x81" + name_of(attribute)[1:],
        b"\x30\x82\0" + name_of(attribute)[1:],
        seq(b"\x31\x81" + many(attribute)[1:]),
        name_of(seq(b"\x06\x81\x03\x55\x04\x03" + printable(b"a"))),
        name_of(seq(COMMON + b"\x13\x81\x02ab")),
        wrap(48, wrap(49, wrap(48, COMMON + b"\x13\x81\x02ab"))),
        name_of(seq(COMMON + b"\x13\x84\x00\x00\x00\x02ab")),
    ]


def told(mode, text):
    """What inspection says, and the octets, or None where no name is there."""
    try:
        found, size = attributes(mode, text)
    except Refused:
        return None
    strict, loose = passes(found, False), passes(found, True)
    words = (strict, loose, loose, loose)
    return " ".join(str(word).lower() for word in words), text[:size]


def names(q):
    good, loose, refused, none = good_names(), loose_names(), refused_names(), no_names()
    for text in good:
        assert told("der", text) == ("true true true true", text), text.hex()
    for text in loose:
        assert told("der", text) == ("false true true true", text), text.hex()
    for text in refused:
        assert told("der", text) == ("false false false false", text), text.hex()
    for text in none:
        assert told("der", text) is None, text.hex()
    texts = [*good, *loose, *refused, *none, *spelled_otherwise(), *(text + b"\0\xff" for text in good[:3])]
    changed = []
    for text in (*good, *loose):
        # Cut off at each octet, but for those inside of long texts; each octet changed, tags and lengths among them.
        changed += [text[:at] for at in range(len(text)) if at < 48 or at > len(text) - 3]
        if len(text) < 40:
            for at in range(len(text)):
                changed += [text[:at] + bytes([other]) + text[at + 1 :] for other in (0, 19, 49, rng.randrange(256))]
    asked = [*itertools.product(MODES, texts), *(("der", text) for text in changed), *(("ber", text) for text in changed[::5])]
    for mode, text in dict.fromkeys(asked):
        answer = told(mode, text)
        q.ask(answer[0] if answer else "refused: content", "name", "inspect", mode, text.hex())
    for mode, text in itertools.product(MODES, [*good, *loose, *refused[:4], *spelled_otherwise()]):
        answer = told(mode, text)
        for to in MODES:
            octets = answer and (answer[1].hex() if to in ("ber", mode) else "no form in CER")
            q.ask(octets or "refused: content", "name", "write", mode, text.hex(), to)
        q.ask(answer[1].hex() if answer else "refused: content", "name", "clone", mode, text.hex())
    some = [*good[:4], *loose[:1], spelled_otherwise()[0]]
    for one, other in itertools.product(some, repeat=2):
        q.ask(str(one == other).lower(), "name", "equal", "ber", one.hex(), "ber", other.hex())
    q.ask("true", "name", "equal", "ber", good[0].hex(), "der", good[0].hex())
    for one, other in itertools.product((*good[:2], *none[5:9]), repeat=2):
        both = one in good and other in good  # what is read behind a refusal is refused, and so is the whole
        q.ask("true true" if both else "refused: content", "name", "forgotten", "der", (one + other).hex())
    for identifier in (bytes(20), b"\xff" * 20, bytes(range(20)), b"\x0a\xf0" * 10, rng.randbytes(20)):
        text = name_of(of(COMMON, printable(identifier.hex().encode())))
        q.ask(f"{text.hex()} true true true true", "name", "key", identifier.hex())
    for octets in (b"", bytes(19), bytes(21)):
        q.ask("refused: no identifier", "name", "key", octets.hex())


# Serial numbers: an INTEGER from 0 up, below 2^160 (RFC 5280 4.1.2.2, X.690 8.3).


def octets_of(number):
    return number.to_bytes(number.bit_length() // 8 + 1, "big")


def serials(q):
    numbers = {0, 1, 9, 10, 11, 42, 99, 100, 127, 128, 255, 256, 2**160 - 1}
    numbers |= {10**k - d for k in range(1, 49) for d in (0, 1)} | {2**k - d for k in range(8, 160, 8) for d in (0, 1)}
    numbers |= {rng.getrandbits(rng.randrange(1, 161)) for _ in range(60)}
    numbers = sorted(number for number in numbers if number < 2**160)
    for at, number in enumerate(numbers):
        text = tlv(2, octets_of(number))
        for mode in MODES if at % 4 == 0 else MODES[:1]:
            q.ask(f"{number} {text.hex()}", "serial", "read", mode, text.hex())
        q.ask(str(number), "serial", "slice", octets_of(number).hex())
    q.ask("0", "serial", "slice", "")
    q.ask("7", "serial", "slice", (bytes(30) + b"\x07").hex())
    for number in (2**160, 2**160 + 1, 2**161 - 1, 2**168, 2**400 + 5):
        q.ask("refused: too great", "serial", "slice", octets_of(number).hex())
        for mode in MODES:
            q.ask("refused: content", "serial", "read", mode, tlv(2, octets_of(number)).hex())
    good = tlv(2, octets_of(2**152 + 77))
    bad = [b"", b"\x02\x00", b"\x02\x01\x80", b"\x02\x01\xff", b"\x02\x02\xff\x00", b"\x02\x02\x00\x7f", b"\x02\x02\x00\x00"]
    bad += [b"\x02\x14" + b"\x80" + bytes(19), b"\x02\x15\x00\x00" + b"\xff" * 19, b"\x22\x03\x02\x01\x05", b"\x0a\x01\x05", b"\x82\x01\x05"]
    bad += [good[:at] for at in range(len(good))]
    for mode, text in itertools.product(MODES, bad):
        q.ask("refused: content", "serial", "read", mode, text.hex())
    for mode in MODES:
        q.ask("5 020105", "serial", "read", mode, "020105ff")  # what stands behind isn't looked at
        q.ask("5 020105" if mode == "ber" else "refused: content", "serial", "read", mode, "02810105")
    few = [0, 1, 255, 256, 2**64, 2**127, 2**128 - 1, 2**128, 2**128 + 1, 2**159, 2**160 - 1]
    for one, other in itertools.product(few, repeat=2):
        order = "Less" if one < other else "Greater" if one > other else "Equal"
        q.ask(f"{order} {str(one == other).lower()}", "serial", "order", octets_of(one).hex(), octets_of(other).hex())
