"""Questions about tags and lengths, sources, and contents that are read step by step or skipped, for tests/questions/codec.py.

The answers come from a reader of tags after X.690 8.1.2, from examples of X.690, and from the worked cases `codec-core-cases` and
`codec-values`.
"""

import random

from codec_spelled import CLASSES, MODES, content, front, identifier, length, listed, some, tlv, told, truth, unhex

rng = random.Random(690)

# X.680 8.4, table 1; the last ones are context-specific.
NAMES = {
    "END_OF_VALUE": 0, "BOOLEAN": 1, "INTEGER": 2, "BIT_STRING": 3, "OCTET_STRING": 4, "NULL": 5, "OID": 6,
    "OBJECT_DESCRIPTOR": 7, "EXTERNAL": 8, "REAL": 9, "ENUMERATED": 10, "EMBEDDED_PDV": 11, "UTF8_STRING": 12,
    "RELATIVE_OID": 13, "TIME": 14, "SEQUENCE": 16, "SET": 17, "NUMERIC_STRING": 18, "PRINTABLE_STRING": 19,
    "TELETEX_STRING": 20, "VIDEOTEX_STRING": 21, "IA5_STRING": 22, "UTC_TIME": 23, "GENERALIZED_TIME": 24,
    "GRAPHIC_STRING": 25, "VISIBLE_STRING": 26, "GENERAL_STRING": 27, "UNIVERSAL_STRING": 28, "CHARACTER_STRING": 29,
    "BMP_STRING": 30, "DATE": 31, "TIME_OF_DAY": 32, "DATE_TIME": 33, "DURATION": 34, "OID_IRI": 35,
    "RELATIVE_OID_IRI": 36,
}  # fmt: skip


def tag_text(kind, number):
    return f"[{CLASSES[kind]}{number}]"


def known_tag(kind, number):
    octets = [identifier(kind, number, form) for form in (False, True)]
    of = listed(truth(kind == other) for other in CLASSES)
    text = tag_text(kind, number)
    return f"{text} Tag({text}) {number} {of} {len(octets[0])} {told(b''.join(octets))}"


def read_tag(octets):
    """The tag in front, its form and how many octets it has; None where there is none (X.690 8.1.2, and at most three
    octets behind the first)."""
    if not octets:
        return None
    kind, form, number = list(CLASSES)[octets[0] >> 6], octets[0] & 0x20 != 0, octets[0] & 31
    if number < 31:
        return None if kind == "universal" and number == 0 else (kind, number, form, 1)
    number = 0
    for size, octet in enumerate(octets[1:4], 2):
        if size == 2 and octet == 0x80:
            return None
        number = number << 7 | octet & 127
        if octet < 128:
            return None if number < 31 else (kind, number, form, size)
    return None


def tags(q):
    for name, number in NAMES.items():
        q.ask(known_tag("universal", number), "tag", "named", name)
    for number in range(7):
        q.ask(known_tag("context", number), "tag", "named", f"CTX_{number}")
    for kind in CLASSES:
        for number in (0, 1, 2, 30, 31, 127, 128, 16383, 16384, 2097150, 2097151):
            q.ask(known_tag(kind, number), "tag", "of", kind, str(number))
    q.ask("true", "tag", "same", "SEQUENCE", "SEQUENCE")
    q.ask("false", "tag", "same", "SEQUENCE", "SET")
    q.ask("false", "tag", "same", "BOOLEAN", "CTX_1")
    for mode in MODES:
        q.ask(" ".join(truth(mode == other) for other in ("ber", "cer", "der")), "tag", "rules", mode)
    # X.690 8.1.2, and case `codec-core-cases`: the tag, whether it is constructed, and its octets.
    for octets, answer in (
        ("30 80", "Some((Tag([UNIVERSAL 16]), true, 1))"),
        ("85 00", "Some((Tag([5]), false, 1))"),
        ("1F 1F", "Some((Tag([UNIVERSAL 31]), false, 2))"),
        ("7F 81 00", "Some((Tag([APPLICATION 128]), true, 3))"),
        ("1F FF FF 7F 00", "Some((Tag([UNIVERSAL 2097151]), false, 4))"),
        ("1F 81 80 80 00 00", "None"),
        ("1F 1E 00", "None"),
        ("1F 80 1F 00", "None"),
        ("1F FF", "None"),
        ("00 00", "None"),
        ("DF", "None"),
        ("", "None"),
    ):
        q.ask(answer, "tag", "read", unhex(octets).hex())
    chance = [bytes([rng.choice([0x1F, 0x3F, 0x7F, 0xBF, 0xFF])]) + rng.randbytes(4) for _ in range(150)]
    for octets in [bytes([first]) for first in range(256)] + chance:
        found = read_tag(octets)
        answer = found and f"(Tag({tag_text(*found[:2])}), {truth(found[2])}, {found[3]})"
        q.ask(some(answer), "tag", "read", octets.hex())
    q.ask("true", "tag", "is-end", "000002")
    q.ask("false", "tag", "is-end", "0001")
    q.ask("false", "tag", "is-end", "00")
    q.ask("false", "tag", "is-end", "0100")


def lengths(q):
    # X.690 8.1.3, 9.1, 10.1, and cases `codec-core-cases` and `codec-values`: in BER, and whether CER and DER have it.
    for octets, answer, shortest in (
        ("7F", "Some((Definite(127), 1))", True),
        ("80", "Some((Indefinite, 1))", True),
        ("81 80", "Some((Definite(128), 2))", True),
        ("81 05", "Some((Definite(5), 2))", False),
        ("82 01 00", "Some((Definite(256), 3))", True),
        ("82 00 FF", "Some((Definite(255), 3))", False),
        ("83 01 00 00", "Some((Definite(65536), 4))", True),
        ("83 00 FF FF", "Some((Definite(65535), 4))", False),
        ("84 FF FF FF FF", "Some((Definite(4294967295), 5))", True),
        ("84 00 FF FF FF", "Some((Definite(16777215), 5))", False),
        ("85 00 00 00 00 01", "None", True),
        ("82 01", "None", True),
        ("FF", "None", True),
        ("", "None", True),
    ):
        for mode in MODES:
            q.ask(answer if shortest or mode == "ber" else "None", "length", "read", mode, unhex(octets).hex())
    for size in (0, 1, 127, 128, 255, 256, 1000, 65535, 65536, 16777215, 16777216, 4294967295):
        octets = length(size)
        q.ask(f"{len(octets)} {truth(size == 0)} {told(octets)}", "length", "of", str(size))
    q.ask("1 false x80", "length", "of", "indefinite")


def sources(q):
    octets = "010203040506"
    walk = ("u8", "skip 2", "request 2", "bytes 2", "advance 2", "opt", "opt", "skip 1", "u8")
    # What is in memory is at hand, and of others only what was asked for.
    for kind in ("slice", "bytes", "string"):
        q.ask("1 2 3 x0405 done Some(6) None 0 refused", "source", kind, octets, *walk)
    for kind in ("trickle", "lent"):
        q.ask("1 2 2 x0405 done Some(6) None 0 refused", "source", kind, octets, *walk)
    limited = ("set 5", "u8", "skip 2", "request 2", "bytes 2", "advance 2", "opt", "exhausted", "limit")
    q.ask("Some(5) 1 2 2 x0405 done None () Some(0) (1, false)", "source", "limited", octets, *limited)
    q.ask("0 1 1 2 3 unexpected (at position 3)", "source", "slice", octets, "pos", "u8", "pos", "skip 2", "pos", "refuse")
    q.ask("x010203040506 x01 x", "source", "slice", octets, "slice", "bytes 1", "bytes 0")
    q.ask("x 1 x01 few few", "source", "trickle", octets, "slice", "request 1", "slice", "bytes 2", "advance 2")
    captures = ("u8", "skip 2", "request 2", "bytes 2", "advance 2", "opt", "opt", "captured", "captured")
    q.ask("1 2 2 x0405 done Some(6) None x010203040506 x None", "source", "capture", octets, *captures)
    q.ask("4 done Some(5)", "source", "capture", octets, "skip 4", "dropped")
    q.ask("4 x01020304 1 x05 Some(6)", "source", "capture", octets, "skip 4", "captured", "skip 1", "captured")
    ends = (
        "further 4", "further 3", "further 4", "exhausted", "take-all", "exhausted", "limit", "set 4", "skip-all", "take-all",
        "set none", "take-all", "skip-all", "u8",
    )  # fmt: skip
    answers = "None Some(4) few refused x010203 () Some(0) Some(4) refused refused None x040506 () refused (0, true)"
    q.ask(answers, "source", "limited", octets, *ends)
    # A source that can give two octets, and fails where it is asked for more.
    faults = (
        "u8", "request 2", "skip 2", "set 3", "skip-all", "exhausted", "set none", "u8", "exhausted", "u8", "take-all", "skip 2",
    )  # fmt: skip
    answers = "1 fault fault Some(3) fault refused None 2 fault fault fault fault"
    q.ask(answers, "source", "faulty", octets, *faults)
    q.ask("2 4 2", "source", "cut-slice", octets)
    q.ask("x0102 false 12 3 15 Some(6) None", "source", "cut", octets, "pos", "skip 3", "pos", "opt", "opt")
    q.ask("x0102 true None", "source", "cut", "0102", "opt")
    texts = "unexpected (at position 7); expected [UNIVERSAL 16]; expected 1; mine; fault"
    q.ask(texts, "source", "errors", "")
    q.ask("out of memory; out of memory", "source", "memory", "")


def primitives(q):
    """Contents of four octets: of sources that fail or end early, and that are read octet by octet."""
    q.ask("fault", "source", "four-faulty", "01020304", "to-u32")
    q.ask("fault", "source", "four-faulty", "01020304", "take-all")
    q.ask("fault", "source", "four-faulty", "01020304", "skip-all")
    q.ask("fault refused refused refused", "source", "four-faulty", "01020304", "to-u32", "to-u32", "take-all", "skip-all")
    q.ask("4 refused refused", "source", "four", "0102", "remaining", "to-u32", "bool")
    q.ask("refused", "source", "four", "0102", "take-all")
    q.ask("refused refused", "source", "four", "0102", "skip-all", "null")
    q.ask("16909060 0 ()", "source", "four", "01020304", "to-u32", "remaining", "null")
    steps = ("mode ber", "mode cer", "u8", "remaining", "skip 1", "take-all", "opt", "null")
    q.ask("Ber Cer 5 3 1 x0708 None ()", "source", "four", "0506070809", *steps)
    q.ask("1 2 258", "source", "four", "010201020304", "u8", "u8", "to-u16")
    q.ask("3 () () ()", "source", "four", "07070707", "skip 3", "is 7", "null", "skip-all")
    q.ask("3 refused refused", "source", "four", "07070701", "skip 3", "is 7", "null")
    q.ask("3 expected [UNIVERSAL 2] (at position 0) 1", "source", "four", "07070701", "skip 3", "refuse-all", "u8")


def in_modes(q, answers, kind, octets):
    for mode, answer in zip(MODES, answers):
        front(q, answer, mode, kind, octets)


READ, REFUSED = "ok value 0", "refused"


def core_cases(q):
    """Case `codec-core-cases`, and `81 05` of case `codec-values`: in BER, CER and DER."""
    for octets, *answers in (
        ("30 80 02 01 05 00 00", READ, READ, REFUSED),
        ("05 80 00 00", REFUSED, REFUSED, REFUSED),
        ("1F FF FF 7F 00", READ, READ, READ),
        ("1F 81 80 80 00 00", REFUSED, REFUSED, REFUSED),
        ("1F 1E 00", REFUSED, REFUSED, REFUSED),
        ("1F 80 1F 00", REFUSED, REFUSED, REFUSED),
        ("04 85 00 00 00 00 01 AA", REFUSED, REFUSED, REFUSED),
        ("04 81 05 01 02 03 04 05", READ, REFUSED, REFUSED),
    ):
        in_modes(q, answers, "skip", octets)
    for mode in MODES:
        content(q, "refused refused", mode, "02 02 00 05", "take u8")
        content(q, f"{'true ()' if mode == 'ber' else 'refused refused'}", mode, "01 01 01", "take bool")
    # Truth values in each mode (X.690 8.2, 11.1), by the content's own call.
    q.ask("refused refused", "constructed", "der", "010101", "take bool")
    q.ask("true ()", "constructed", "ber", "010101", "take bool")
    q.ask("5 true ()", "constructed", "cer", "0201050101ff", "take u8", "take bool")
    q.ask("[(Tag([UNIVERSAL 2097151]), false, 0)] true", "skip", "visits", "der", "1fffff7f00")


# SEQUENCE { [0] { INTEGER 5 }, OCTET STRING }, the outer one of indefinite length.
NESTED = unhex("30 80 A0 03 02 01 05 04 00 00 00")


def skipping(q):
    """X.690 8.1.3, 8.1.5, 9.1, 10.1: how many octets are left behind the value in front in BER, CER and DER."""
    for octets, *left in (
        ("05 00 02", 1, 1, 1),
        ("30 03 02 01 05", 0, None, 0),
        ("30 81 03 02 01 05", 0, None, None),
        ("1F 1F 01 AA", 0, 0, 0),
        ("00 00", None, None, None),
        ("30 02 00 00", None, None, None),
        ("30 04 02 03 01 02 03", None, None, None),
        ("02 84 FF FF FF FF", None, None, None),
        ("30 80 02 01 05 00 00", 0, 0, None),
        ("05 80 00 00", None, None, None),
        ("30 80 00 01 AA 00 00", None, None, None),
        ("30 80 05 00 00", None, None, None),
        ("30 80 30 02 05 00 00 00", 0, None, None),
        ("30 04 30 80 00 00", 0, None, None),
        ("30 03 30 80 00 00", None, None, None),
    ):
        in_modes(q, ["refused" if count is None else f"ok value {count}" for count in left], "skip", octets)
    in_modes(q, ["ok none 0"] * 3, "skip", "")
    told = "[(Tag([UNIVERSAL 16]), true, 0), (Tag([0]), true, 1), (Tag([UNIVERSAL 2]), false, 2), (Tag([UNIVERSAL 4]), false, 1)]"
    q.ask(f"{told} true", "skip", "visits", "ber", NESTED.hex())
    for end in range(len(NESTED)):
        cut = NESTED[:end].hex()
        content(q, "refused refused", "ber", cut, "skip next")
        front(q, "ok none 0" if end == 0 else "refused", "ber", "skip", cut)
    front(q, "ok value 0", "ber", "skip", NESTED.hex())
    q.ask("no octets here (at position 9)", "skip", "refused", "ber", NESTED.hex())
    content(q, "refused " * 5 + "refused", "ber", NESTED.hex(), "skip opt no", "skip one", "skip all", "skip next", "skip opt")
    # BOOLEAN, an empty SEQUENCE, an empty OCTET STRING.
    three = "01 01 FF 30 00 04 00"
    ways = ("skip one", "skip opt", "skip all")
    content(q, "Some(()) Some(()) () None None () ()", "der", three, *ways, *ways)
    content(q, "refused refused", "cer", three, "skip all")
    content(q, "() refused refused refused", "ber", "", "skip all", "skip next", "skip one")
    for levels in (1, 16, 17, 10_000, 1_000_000):
        deepest = f"Some({levels - 1})"
        for mode, form, answer in (
            ("der", "definite", deepest),
            ("cer", "definite", deepest if levels == 0 else "None"),
            ("cer", "indefinite", deepest),
            ("ber", "indefinite", deepest),
            ("der", "indefinite", "None"),
            ("ber", "cut", "None"),
        ):
            q.ask(answer, "skip", "deep", mode, form, str(levels))


# SEQUENCE { INTEGER 5, [0] { NULL }, OCTET STRING ab } in DER, and an octet behind it.
VALUE = unhex("30 0B 02 01 05 A0 02 05 00 04 02 61 62 EE")
NUMBER, NULL_IN_0, STRING = VALUE[2:5], VALUE[5:9], VALUE[9:13]
INSIDE = (NUMBER + NULL_IN_0 + STRING).hex()


def taking(q):
    fields = ("primitive next INTEGER", "constructed tagged CTX_0 null", "primitive octets OCTET_STRING")
    content(q, "5 0 x6162 ()", "der", INSIDE, *fields)
    optional = (
        "constructed opt-tagged SEQUENCE null", "primitive opt-tagged BOOLEAN", "primitive opt-tagged INTEGER",
        "primitive opt-next INTEGER", "constructed opt-next x null", "value opt-tagged NULL octets", "value opt-next x octets",
    )  # fmt: skip
    content(q, "None None Some(5) None None None None ()", "der", NUMBER.hex(), *optional)
    content(q, "Some(5) ()", "der", NUMBER.hex(), "primitive opt-next INTEGER")
    # An optional value is missing where the content ends or another tag is next (X.690 8.1.2), also in front of octets
    # that are no value; where its tag is next, or no identifier octets are, it is refused.
    for way, tag, form in (("primitive", "INTEGER", ""), ("constructed", "SEQUENCE", " null"), ("value", "INTEGER", " octets")):
        content(q, "None ()", "ber", "", f"{way} opt-tagged {tag}{form}")
        content(q, "None ()", "ber", "01 05 01", f"{way} opt-tagged {tag}{form}")
        content(q, "refused refused", "ber", "1F", f"{way} opt-tagged {tag}{form}")
        content(q, "refused refused", "ber", "1F 80 01", f"{way} opt-tagged {tag}{form}")
    content(q, "refused refused", "der", "02 05 01", "primitive opt-tagged INTEGER")
    content(q, "refused refused", "der", STRING.hex(), "primitive next INTEGER")
    forms = ("value next x octets", "value opt-tagged NULL null", "value tagged CTX_0 null", "value opt-next x octets")
    number = "(Tag([UNIVERSAL 2]), 5)"
    content(q, f"{number} None 0 None ()", "der", (NUMBER + NULL_IN_0).hex(), *forms)
    content(q, "Some(5) ()", "der", NUMBER.hex(), "value opt-tagged INTEGER octets")
    content(q, f"Some({number}) ()", "der", NUMBER.hex(), "value opt-next x octets")
    content(q, "refused refused", "der", (NUMBER + NULL_IN_0).hex(), "value tagged INTEGER null")
    content(q, "refused refused", "der", NULL_IN_0.hex(), "value next x octets")
    content(q, "() ()", "der", VALUE.hex(), "constructed all SEQUENCE")
    content(q, "refused refused", "der", VALUE.hex(), "constructed all SET")
    content(q, "refused refused", "cer", VALUE.hex(), "constructed all SEQUENCE")
    content(q, "refused refused", "der", VALUE.hex(), "primitive skip SEQUENCE")
    content(q, "() ()", "der", STRING.hex(), "primitive skip OCTET_STRING")
    content(q, "refused refused", "der", VALUE.hex(), "named sequence u8")
    content(q, "refused refused", "der", VALUE.hex(), "named sequence nothing")
    # A refused read, and then an answer all the same, or another read.
    content(q, "refused refused", "der", tlv(0x30, NUMBER).hex(), "named sequence over")
    content(q, "refused refused", "der", tlv(0x30, NUMBER).hex(), "named sequence again")
    content(q, "refused refused", "der", VALUE.hex(), "take bool")
    content(q, "refused refused refused", "der", NUMBER.hex(), "take bool", "take u8")
    # A truth of 1 is one by the Basic Encoding Rules alone (X.690 8.2.2, 11.1): by which rules a content is read may be
    # changed, up to the content's end.
    truth = "01 01 01"
    content(q, "Ber true Der refused refused", "der", truth * 2, "mode ber", "take bool", "mode der", "take bool")
    content(q, "true Cer refused refused", "ber", truth * 2, "take bool", "mode cer", "take bool")
    content(q, "Der false ()", "ber", "01 01 00", "mode der", "take bool")
    inside = tlv(0x30, unhex(truth)).hex()
    content(q, "1 refused refused", "der", inside + truth, "named sequence ber", "take bool")
    content(q, "1 true ()", "ber", inside + truth, "named sequence ber", "take bool")
    content(q, "refused refused", "der", inside, "named sequence over")


def captures(q):
    content(q, f"{told(NUMBER)} {told(NULL_IN_0 + STRING)} x ()", "der", INSIDE, "capture one", "capture all", "capture all")
    content(q, "Der 5 [] ()", "der", NUMBER.hex(), "capture one number")
    content(q, "Ber ()", "ber", "", "capture mode")
    # Captured octets, taken up again as octets that spell values: of a NULL and an OCTET STRING the NULL can be read.
    content(q, "() x04026162 refused x04026162 x04026162 ()", "der", "05 00 04 02 61 62", "capture all again")
    content(q, "() x refused x x ()", "cer", "05 00", "capture one again")
    content(q, "refused x refused x x ()", "ber", "", "capture all again")
    content(q, "refused x ()", "ber", "", "capture one", "capture all")
    # A NULL, and the OCTET STRING ab: read in part, twice.
    content(q, "() x04026162 refused x04026162 x04026162 ()", "der", "05 00 04 02 61 62", "capture all parts")
    content(q, "x0500 refused x04026162 ()", "der", "05 00 04 02 61 62", "capture null", "capture null", "capture all")
    # A capture that is refused leaves the number that stands there, and one of nothing is refused.
    content(q, "refused 5 refused ()", "der", "02 01 05", "capture null", "take u8", "capture one")


def scalars(q):
    # X.690 8.2.2, 11.1: a BOOLEAN in BER, and in CER and DER.
    for octets, basic, strict in (
        ("01 01 00", "false", "false"),
        ("01 01 01", "true", None),
        ("01 01 FE", "true", None),
        ("01 01 FF", "true", "true"),
        ("01 00", None, None),
        ("01 02 00 00", None, None),
        ("02 01 00", None, None),
    ):
        for mode in MODES:
            answer = basic if mode == "ber" else strict
            content(q, "refused refused" if answer is None else f"{answer} ()", mode, octets, "take bool")
    for mode in MODES:
        for kind in ("u8", "u16", "u32", "u64"):
            content(q, "refused refused", mode, "02 02 00 05", f"take {kind}")
            content(q, "5 ()", mode, "02 01 05", f"take {kind}")
            content(q, "None ()", mode, "04 00", f"opt {kind}")
        content(q, "() ()", mode, "05 00", "take null")
        content(q, "refused refused", mode, "05 01 00", "take null")
    for kind in ("u16", "u32", "u64"):
        content(q, "256 ()", "der", "02 02 01 00", f"take {kind}")
        content(q, "Some(256) ()", "der", "02 02 01 00", f"opt {kind}")
    content(q, "refused refused", "der", "02 02 01 00", "opt u8")
    in_turn = ("opt bool", "opt null", "opt null", "opt u8", "opt bool", "opt u8")
    content(q, "None Some(()) None None Some(true) Some(7) ()", "der", "05 00 01 01 FF 02 01 07", *in_turn)
    versions = "02 01 01 02 01 02 02 01 02 04 00"
    content(q, "() () Some(()) None ()", "der", versions, "is 1", "is 2", "opt-is 2", "opt-is 2")
    content(q, "refused refused", "der", "04 00", "is 2")
    content(q, "refused refused", "der", versions, "is 3")
    content(q, "refused refused", "der", versions, "opt-is 3")
    # A SEQUENCE with 7 in it, and a SET with 9 in it.
    both = "30 03 02 01 07 31 03 02 01 09"
    content(q, "7 9 ()", "der", both, "named sequence u8", "named set u8")
    content(q, "refused refused", "der", both, "named set u8")
    content(q, "refused refused", "der", "31 03 02 01 09", "named sequence u8")
    optional = ("named opt-set u8", "named opt-sequence u8", "named opt-sequence u8", "named opt-set u8")
    content(q, "None Some(7) None Some(9) ()", "der", both, *optional)


def faults(q):
    """Each request of a source fails in turn: that is told as a fault, and leaves the content failed. Where the request
    that fails is behind the last one of a read, the value is read, and what reads on meets the fault."""
    number, boolean, null = "020107", "0101ff", "0500"
    sequence, of_set = "308005000000", "318005000000"
    tag = "Tag([UNIVERSAL 16])"
    rows = [(number, f"take {kind}", "7") for kind in ("u8", "u16", "u32", "u64")]
    rows += [(number, f"opt {kind}", "Some(7)") for kind in ("u8", "u16", "u32", "u64")]
    rows += [(number, "is 7", "()"), (number, "opt-is 7", "Some(())")]
    rows += [(boolean, "take bool", "true"), (boolean, "opt bool", "Some(true)")]
    rows += [(null, "take null", "()"), (null, "opt null", "Some(())")]
    rows += [(null, f"primitive {way} NULL", "0") for way in ("tagged", "next")]
    rows += [(null, f"primitive opt-{way} NULL", "Some(0)") for way in ("tagged", "next")]
    rows += [(sequence, f"constructed {way} SEQUENCE null", "0") for way in ("tagged", "next")]
    rows += [(sequence, f"constructed opt-{way} SEQUENCE null", "Some(0)") for way in ("tagged", "next")]
    rows += [(sequence, "value tagged SEQUENCE null", "0")]
    rows += [(sequence, "value opt-tagged SEQUENCE null", "Some(0)")]
    rows += [(sequence, "value next x null", f"({tag}, 0)")]
    rows += [(sequence, "value opt-next x null", f"Some(({tag}, 0))")]
    rows += [(sequence, "named sequence null", "0"), (sequence, "named opt-sequence null", "Some(0)")]
    rows += [(of_set, "named set null", "0"), (of_set, "named opt-set null", "Some(0)")]
    rows += [(sequence, "skip opt", "Some(())"), (sequence, "skip next", "()")]
    rows += [(sequence, "skip one", "Some(())"), (sequence, "skip all", "()")]
    for octets, step, answer in rows:
        q.ask(f"fault refused {answer} fault", "fails", octets, step)
    # A refused capture leaves its content as it was, so that it is made at once; so does one that there is no memory for.
    for step in ("capture some", "capture one", "capture all"):
        q.ask(f"fault x{sequence} x{sequence} fault", "fails", sequence, step)
        q.ask(f"memory x{sequence}", "dry", sequence, step)
    q.ask("memory refused", "dry", number, "primitive octets INTEGER")


def forms(q):
    read = lambda answer, kind, mode, octets: q.ask(answer, "tagged", kind, mode, unhex(octets).hex())
    # A value with the tag [5] in place of its own: INTEGER 7, and 256, NULL, INTEGER 8; in a constructed value; another tag.
    seven, inside, elsewhere, wide, null, eight = "85 01 07", "A5 03 02 01 07", "86 01 07", "85 02 01 00", "85 00", "85 01 08"
    for octets, answer in ((seven, "7"), (inside, "refused"), (elsewhere, "refused"), (wide, "refused"), (null, "refused")):
        read(answer, "u8", "der", octets)
    for kind in ("u16", "u32", "u64"):
        read("256", kind, "der", wide)
        read("refused", kind, "der", inside)
    read("0", "null", "der", null)
    read("refused", "null", "der", seven)
    read("0", "seven", "der", seven)
    read("refused", "seven", "der", eight)
    # Whether a value is primitive, and whether it is constructed.
    read("(true, false)", "form", "der", "04 00")
    read("(false, true)", "form", "der", "30 00")


def ask(q):
    tags(q)
    lengths(q)
    sources(q)
    primitives(q)
    core_cases(q)
    skipping(q)
    taking(q)
    captures(q)
    scalars(q)
    faults(q)
    forms(q)
