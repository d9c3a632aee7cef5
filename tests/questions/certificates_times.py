"""Questions about moments and validity, for tests/questions/certificates.py.

A moment is a UTCTime (X.680 47) `YYMMDDHHMMSSZ` of the years 1950 to 2049, or a GeneralizedTime (X.680 46)
`YYYYMMDDHHMMSSZ`, a real date of the proleptic Gregorian calendar with hours to 23, minutes and seconds to 59 (RFC 5280
4.1.2.5). What is written is a UTCTime from 1950 through 2049, else a GeneralizedTime.
"""

import datetime
import itertools
import random

from certificates_x690 import MODES, Refused, need, parts_of, value
from rpki_repositories import tlv

rng = random.Random(1950)
UTC, GENERAL = 23, 24


def is_real(text):
    """Whether 14 digits tell a real date and time of day."""
    year, month, day, hour, minute, second = (int(text[a:b]) for a, b in ((0, 4), (4, 6), (6, 8), (8, 10), (10, 12), (12, 14)))
    leap = year % 4 == 0 and (year % 100 != 0 or year % 400 == 0)
    days = {2: 29 if leap else 28, 4: 30, 6: 30, 9: 30, 11: 30}.get(month, 31)
    return 1 <= month <= 12 and 1 <= day <= days and hour < 24 and minute < 60 and second < 60


def moment_of(item, only_general=False):
    """The text YYYYMMDDHHMMSSZ of a value."""
    tag, content = item.tag, item.content
    need(content is not None)
    need(tag == (0, GENERAL) or (tag == (0, UTC) and not only_general))
    digits = content[:-1]
    need(content[-1:] == b"Z" and len(digits) == (14 if tag == (0, GENERAL) else 12))
    need(all(48 <= octet < 58 for octet in digits))
    text = digits.decode()
    if tag == (0, UTC):
        text = ("19" if int(text[:2]) >= 50 else "20") + text
    need(is_real(text))
    return text + "Z"


def varied(text):
    return tlv(UTC, text[2:].encode()) if 1950 <= int(text[:4]) <= 2049 else tlv(GENERAL, text.encode())


def seq_in(mode, content):
    return b"\x30\x80" + content + b"\0\0" if mode == "cer" else tlv(48, content)


def told(mode, octets):
    try:
        text = moment_of(value(octets, mode)[0])
    except Refused:
        return "refused: content"
    return f"{text} {varied(text).hex()} {tlv(GENERAL, text.encode()).hex()}"


def told_general(mode, octets):
    try:
        return moment_of(value(octets, mode)[0], True)
    except Refused:
        return "refused: content"


def told_validity(mode, octets):
    try:
        parts = parts_of(value(octets, mode)[0], 16)
        need(len(parts) == 2)
        first, last = map(moment_of, parts)
    except Refused:
        return "refused: content"
    return f"{first} {last} {seq_in(mode, varied(first) + varied(last)).hex()}"


MOMENTS = """
00000101000000Z 00000229000000Z 00010101000000Z 09991231235959Z 19000228235959Z 19491231235959Z 19500101000000Z
19700101000000Z 19991231235959Z 20000101000000Z 20000229120000Z 20040229235959Z 20261123214416Z 20491231235959Z
20500101000000Z 21000228000000Z 24000229000000Z 99991231235959Z
""".split()

NO_MOMENTS = """
20230229000000Z 21000229000000Z 19000229000000Z 20260431000000Z 20260631000000Z 20260931000000Z 20261131000000Z
20260001000000Z 20261301000000Z 20260100000000Z 20260132000000Z 20260101240000Z 20260101006000Z 20260101000060Z
20260101000000 20260101000000z 2026010100000Z 202601010000000Z 20260101000000+ 20260101000000.0Z 2026-10100000Z
2026 101000000Z 20260101000000ZZ
""".replace("2026 1", "2026_1").split()

NO_SHORT = """
230229000000Z 500001000000Z 491301000000Z 260132000000Z 260101240000Z 260101006000Z 260101000060Z 2601010000Z
260101000000 260101000000z 26010100000Z 2601010000000Z 260101000000+0000 2601010000-1Z
""".split()


def moments(q):
    good = [tlv(GENERAL, text.encode()) for text in MOMENTS]
    good += [tlv(UTC, text[2:].encode()) for text in MOMENTS if text[2:] != "000229000000Z"]
    bad = [tlv(GENERAL, text.replace("_", " ").encode()) for text in NO_MOMENTS] + [tlv(UTC, text.encode()) for text in NO_SHORT]
    bad += [b"", tlv(GENERAL, b""), tlv(UTC, b""), tlv(UTC, b"20260101000000Z"), tlv(GENERAL, b"260101000000Z")]
    bad += [tlv(22, b"260101000000Z"), tlv(25, b"20260101000000Z"), tlv(0x37, tlv(UTC, b"260101000000Z")), tlv(0x97, b"260101000000Z")]
    for at, text in enumerate(good):
        bad += [text[:cut] for cut in range(len(text))] if at % 7 == 0 else []
        bad += [bytes([text[0] ^ 1 << bit]) + text[1:] for bit in range(8)] if at % 5 == 0 else []
        bad += [text[:place] + bytes([rng.randrange(256)]) + text[place + 1 :] for place in range(1, len(text))] if at % 6 == 0 else []
    long = bytes([UTC, 0x81, 13]) + b"260101000000Z"
    for mode, text in itertools.product(MODES, [*good, *bad, long, good[3] + b"\xff"]):
        q.ask(told(mode, text), "time", "read", mode, text.hex())
        q.ask(told_general(mode, text), "time", "general", mode, text.hex())


def validities(q):
    few = [tlv(UTC, b"500101000000Z"), tlv(UTC, b"491231235959Z"), tlv(GENERAL, b"20500101000000Z"), tlv(GENERAL, b"20260101000000Z")]
    for mode in MODES:
        whole = [seq_in(mode, one + other) for one, other in itertools.product(few, repeat=2)]
        bad = [seq_in(mode, b""), seq_in(mode, few[0]), seq_in(mode, few[0] + few[1] + few[2]), tlv(49, few[0] + few[1]), few[0] + few[1]]
        bad += [seq_in(mode, few[0] + b"\x05\x00"), seq_in(mode, tlv(GENERAL, b"20260230000000Z") + few[0])]
        bad += [whole[1][:cut] for cut in range(len(whole[1]))]
        bad += [seq_in(other, few[0] + few[1]) for other in MODES]
        for text in [*whole, *bad, whole[2] + b"\x05\x00"]:
            q.ask(told_validity(mode, text), "time", "validity", mode, text.hex())
    days = ["20260101000000Z", "20260101000001Z", "20261231235959Z", "20270101000000Z", "00000101000000Z", "99991231235959Z"]
    for first, last, now in itertools.product(days, repeat=3):
        answer = "NotYetValid" if now < first else "Expired" if now > last else "valid"
        q.ask(answer, "time", "verify", first, last, now)
    lasting(q)


# The days of 400 years, after which dates come again; and those before the year 400, in Python's count.
CYCLE, BEFORE = 146097, datetime.date(400, 1, 1).toordinal()


def number_of(text):
    """The seconds of a moment since the year 0."""
    year, month, day, hour, minute, second = (int(text[a:b]) for a, b in ((0, 4), (4, 6), (6, 8), (8, 10), (10, 12), (12, 14)))
    days = datetime.date(400 + year % 400, month, day).toordinal() - BEFORE + year // 400 * CYCLE
    return ((days * 24 + hour) * 60 + minute) * 60 + second


def text_of(number):
    """The moment of so many seconds since the year 0, or None outside the years 0 to 9999."""
    days, rest = divmod(number, 86400)
    cycles, days = divmod(days, CYCLE)
    if not 0 <= cycles < 25:
        return None
    date = datetime.date.fromordinal(BEFORE + days)
    return f"{date.year - 400 + 400 * cycles:04}{date:%m%d}{rest // 3600:02}{rest // 60 % 60:02}{rest % 60:02}Z"


def lasting(q):
    """Validities of so many seconds, from a moment on or up to it."""
    first, last = 0, number_of("99991231235959Z")
    for moment in MOMENTS:
        now = number_of(moment)
        steps = [0, 1, 59, 3600, 86399, 86400, 28 * 86400, 366 * 86400, CYCLE * 86400, 2**36 + 12345, last, last + 1, 2**63 - 1]
        steps += [-step for step in steps[1:]] + [-(2**63), last - now, last - now + 1, first - now, first - now - 1]
        for step in steps:
            then = text_of(now + step)
            q.ask("none" if then is None else " ".join(sorted((moment, then))), "time", "seconds", moment, str(step))
