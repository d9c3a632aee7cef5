"""Questions about entries of revocation lists by themselves, in each mode, for tests/questions/certificates.py (RFC 5280 5.1.2.6).

An entry is a SEQUENCE of a serial number and a moment, with nothing after them (RFC 6487 5); a list of them is a SEQUENCE of
entries, and is absent where there are none. Lengths are definite in DER, indefinite in CER, and both in BER (X.690 8.1.3, 9.1,
10.1).
"""

import random

from certificates_lists import entry, entry_of
from certificates_signed import around
from certificates_x690 import MODES, Refused, parts_of, value
from rpki_repositories import NULL, integer, seq, tlv

rng = random.Random(2459)

DATES = ("20261123000000Z", "19500101000000Z", "20491231235959Z", "20500101000000Z", "99991231235959Z", "00000101000000Z", "19491231235959Z")
SERIALS = (0, 1, 127, 128, 255, 256, 2**64, 2**128 - 1, 2**128, 2**159, 2**160 - 1)


def moment(text):
    """UTCTime from 1950 through 2049, and GeneralizedTime before and after (RFC 5280 5.1.2.4)."""
    return tlv(23, text[2:].encode()) if "1950" <= text[:4] <= "2049" else tlv(24, text.encode())


def serial_word(number):
    return number.to_bytes(20, "big").hex()


def pair_words(pairs):
    return [word for number, date in pairs for word in (serial_word(number), date)]


def recoded(data, outer_only=False):
    """The octets of a value in DER, with indefinite lengths where they are constructed, or of the outermost value alone."""
    item, rest = value(data, "der")
    if item.parts is None:
        return data
    inner = b"".join(part.octets if outer_only else recoded(part.octets) for part in item.parts)
    return bytes([data[0], 128]) + inner + b"\0\0" + rest


def forms(data):
    """The octets of a value in DER, in CER, and where these differ in both ways at once, with the modes that have them."""
    yield from ((data, ("ber", "der")), (recoded(data), ("ber", "cer")))
    if recoded(data) != recoded(data, True):
        yield recoded(data, True), ("ber",)


def is_sequence(data):
    return data[:1] == b"\x30"


def content(data):
    """The octets within a value in DER."""
    return b"".join(part.octets for part in value(data, "der")[0].parts)


def told(pair):
    return "%d %s" % pair


# One entry.


def entry_told(data, mode):
    try:
        return told(entry_of(value(data, mode)[0]))
    except Refused:
        return "refused"


def wrong_entries():
    """Fields that are missing, too many, in another order, of other kinds and values; and other values."""
    date, serial = moment(DATES[0]), integer(12)
    yield from (seq(), seq(serial), seq(date), seq(date, serial), seq(serial, date, integer(1)), seq(serial, date, seq()), seq(serial, serial, date))
    yield from (seq(tlv(2, octets), date) for octets in (b"", b"\xff", b"\0\1", b"\xff\x80", (2**160).to_bytes(21, "big")))
    yield from (seq(tlv(10, b"\1"), date), seq(seq(serial), date), seq(serial, tlv(23, b"20261123000000Z")), seq(serial, tlv(24, b"261123000000Z")))
    yield from (seq(serial, tlv(23, text)) for text in (b"", b"2611230000Z", b"261123000000+0000", b"261123240000Z", b"261131000000Z", b"010229000000Z"))
    yield from (tlv(0x30, serial + date)[:-1], tlv(0x31, serial + date), tlv(0xA1, serial + date), serial, NULL)


def ask_entry(q, data, mode):
    answer = entry_told(data, mode)
    q.ask(answer, "entry", "taken", mode, data.hex())
    q.ask(answer if is_sequence(data) else "none", "entry", "next", mode, data.hex())
    return answer


def one_entry(q):
    for number in SERIALS:
        for date in DATES:
            one = entry(number, moment(date))
            for data, modes in forms(one):
                for mode in MODES:
                    answer = ask_entry(q, data + rng.choice([b"", NULL, one]), mode)
                    assert answer == (told((number, date)) if mode in modes else "refused")
            for mode in MODES:
                inner = content(one)
                q.ask(told((number, date)), "entry", "tagged", mode, around(0xA1, inner, mode).hex())
                for wrong in (around(0xA1, inner + NULL, mode), around(0xA1, b"", mode), around(0xA0, inner, mode), around(0xA1, around(0x30, inner, mode), mode)):
                    q.ask("refused", "entry", "tagged", mode, wrong.hex())
                q.ask("x" + around(0x30, inner, mode).hex(), "entry", "written", mode, serial_word(number), date)
    for data in wrong_entries():
        for mode in MODES:
            assert ask_entry(q, data, mode) == "refused"
    for mode in MODES:
        for data in (b"", NULL, NULL + entry(12)):
            q.ask("none", "entry", "next", mode, data.hex())
            q.ask("refused", "entry", "taken", mode, data.hex())


# Lists of entries.


def left(pairs):
    return " ".join(["left", *map(told, pairs)])


def list_told(pairs, written):
    """All entries; whether there is a first one; those after it, twice; all of a clone; what is written."""
    first = "true" if pairs else "false"
    return " ".join([left(pairs), first, left(pairs[1:]), left(pairs[1:]), left(pairs), written])


def read_told(data, mode):
    """What is told of the list in front: its entries as they stood are written again, and nothing of none."""
    try:
        parts = parts_of(value(data, mode)[0], 16)
        pairs = [entry_of(part) for part in parts]
        return list_told(pairs, "x" + around(0x30, b"".join(part.octets for part in parts), mode).hex() if pairs else "none")
    except Refused:
        return "refused"


def ask_list(q, data, mode):
    answer = read_told(data, mode) if is_sequence(data) else None
    q.ask(answer or list_told([], "none"), "listed", "taken", mode, data.hex())
    q.ask(answer or "absent", "listed", "next", mode, data.hex())
    return answer


def some_lists():
    date = DATES[0]
    yield from ([], [(12, date)], [(12, date), (42, date)], [(42, DATES[1]), (12, DATES[3]), (42, DATES[2])], [(number, date) for number in SERIALS], [(5, date) for date in DATES])
    for count in (3, 7, 8, 100):
        yield [(rng.choice(SERIALS + (rng.randrange(2**64),)), rng.choice(DATES)) for _ in range(count)]


def read_lists(q):
    for pairs in some_lists():
        data = seq(*(entry(number, moment(date)) for number, date in pairs))
        for form, modes in forms(data):
            for mode in MODES:
                answer = ask_list(q, form + rng.choice([b"", NULL, data]), mode)
                assert answer.startswith(f"{left(pairs)} ") if mode in modes else answer == "refused"
    for wrong in wrong_entries():
        for data in (seq(wrong), seq(entry(1), wrong), seq(wrong, entry(1))):
            for mode in MODES:
                assert ask_list(q, data, mode) == "refused"
    for mode in MODES:
        for data in (b"", NULL, NULL + seq(entry(12)), tlv(0x31, entry(12)), tlv(0xA0, seq(entry(12)))):
            assert ask_list(q, data, mode) is None


def made_lists(q):
    """Lists of entries in DER, which isn't written in CER."""
    q.ask(list_told([], "none"), "listed", "empty")
    for pairs in some_lists():
        octets = "x" + seq(*(entry(number, moment(date)) for number, date in pairs)).hex()
        for mode, written in (("der", octets), ("ber", octets), ("cer", "no form in CER")):
            q.ask(list_told(pairs, written if pairs else "none"), "listed", "made", mode, *pair_words(pairs))


def memberships(q):
    """Whether a list has a serial number, by its entries, by those that are kept aside and where, and by a clone of these."""
    for pairs in some_lists():
        kept = sorted({number for number, _ in pairs})
        for number in {*kept[:12], *SERIALS, 12, 13, 42, 41}:
            held, place = ("true", kept.index(number)) if number in kept else ("false", "-")
            q.ask(f"{held} {held} {place} {held} {place}", "listed", "has", serial_word(number), *pair_words(pairs))


def entries(q):
    """Asks all questions."""
    one_entry(q)
    read_lists(q)
    made_lists(q)
    memberships(q)
