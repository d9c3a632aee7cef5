"""Questions about identifiers, bit strings, octet strings and restricted strings, read and written, for tests/questions/codec.py.

The answers come from Python's own texts, from examples of X.690, RFC 3629 and OpenSSL, and from the worked cases `string-cases` and
`codec-values`.
"""

from codec_spelled import (
    CER_UNSUPPORTED, IDENTIFIERS, MODES, constructed, front, listed, segments, sign, some, string, tlv, told, truth, unhex, whole,
    wholes, write,
)  # fmt: skip


def identifiers(q):
    # Case `codec-values` has 2.5.29.19.
    for text, octets in IDENTIFIERS.items():
        q.ask(f"{text} {text.replace('.', ' ')}", "oid", "print", octets)
        q.ask(told(unhex(octets)), "oid", "parse", text)
    q.ask("x2a00", "oid", "parse", "+1.002.0")
    # No whole identifier, zeros in front of a component, and a component of 2^32.
    for octets, answer in (
        ("", ""),
        ("80", ""),
        ("551d93", "2.5.29 2 5 29"),
        ("55808005", "2.5.5 2 5 5"),
        ("2a908080800001", "1.2.(not implemented).1 1 2 [(not implemented)] 1"),
    ):
        q.ask(answer, "oid", "print", octets)
    for text, answer in (
        ("", "Component"), ("1", "TooFew"), ("1.", "Component"), (".1", "Component"), ("1..2", "Component"),
        ("1.2.", "Component"), ("1.2. 3", "Component"), ("1.2.3a", "Component"), ("1.-2", "Component"),
        ("1.2.4294967296", "Component"), ("3.1", "First"), ("0.40", "Second"), ("1.40", "Second"), ("1,2", "Component"),
    ):  # fmt: skip
        q.ask(answer, "oid", "parse", text)
    texts = "at least two components required; only integer components allowed; first component can only be 0, 1, or 2; "
    q.ask(texts + "second component for 0 and 1 must be less than 40; out of memory", "oid", "errors")
    # 2.4294967296.4294967296.4294967296: the last has a zero in front.
    q.ask("false true true", "oid", "repeated", "9080808050" + "9080808000" + "809080808000")
    q.ask("false true", "oid", "repeated", "2a02")
    for octets, answer in (("550403", True), ("550405", False), ("5504", False), ("", False)):
        q.ask(listed([truth(answer)] * 3), "oid", "same", octets)
    for mode in MODES:
        q.ask("true", "oid", "take", mode, "0603550403")
        q.ask("()", "oid", "skip", mode, "0603550403")
        q.ask("true", "oid", "content", mode, "550403")
        q.ask("()", "oid", "past", mode, "550403")
        # Empty, ending with bit 8 set, cut off, constructed, of another tag.
        for octets in ("0600", "060180", "0603551d93", "06035504", "2603060101", "0403550403"):
            q.ask("refused", "oid", "take", mode, octets)
            q.ask("refused", "oid", "skip", mode, octets)
        for octets in ("", "80", "551d93"):
            q.ask("refused", "oid", "content", mode, octets)
            q.ask("refused", "oid", "past", mode, octets)
    q.ask("()", "oid", "name", "der", "0603550403")
    for octets in ("0603550405", "060455040300", "06025504", "0500"):
        q.ask("refused", "oid", "name", "der", octets)
    q.ask("(Some(()), true)", "oid", "opt", "der", "060101060102")
    q.ask("(Some(()), false)", "oid", "opt", "der", "0601010500")
    q.ask("(None, false)", "oid", "opt", "der", "0500")


def bits(q, answer, call, mode, octets):
    q.ask(answer, "bits", call, mode, unhex(octets).hex())


def known_bits(unused, octets):
    count = 8 * len(octets) - unused
    places = "".join(f"{octet:08b}" for octet in octets)[:count] + "0"
    last = some(octets[-1] if octets else None)
    same = truth(unused == 0)
    return f"{unused} {count} {len(octets)} {places} {told(octets)} {told(octets)} {told(octets)} {last} true {same}"


def bit_strings(q):
    # By `openssl asn1parse -genstr FORMAT:BITLIST,BITSTRING:..` and `FORMAT:HEX,BITSTRING:0A3B5F291CD0`; and none.
    for octets, unused, string in (
        ("03 02 02 44", 2, "44"),
        ("03 03 05 80 20", 5, "80 20"),
        ("03 07 00 0A 3B 5F 29 1C D0", 0, "0A 3B 5F 29 1C D0"),
        ("03 01 00", 0, ""),
    ):
        for mode in MODES:
            bits(q, known_bits(unused, unhex(string)), "take", mode, octets)
            bits(q, "()", "skip", mode, octets)
            write(q, wholes(3, bytes([unused]) + unhex(string)), mode, "bits", octets)
    # No count, a count of unused bits beyond the octets or above 7, the constructed form, another tag, an end.
    for octets in ("03 00", "03 01 01", "03 02 08 00", "23 04 03 02 00 01", "04 02 00 01", "03 03 00 01"):
        for mode in MODES:
            bits(q, "refused", "take", mode, octets)
            bits(q, "refused", "skip", mode, octets)
    # Case `codec-values`: set unused bits are refused in DER, and in CER; in BER they stay as they are.
    padded = "03 02 03 FF"
    bits(q, known_bits(3, b"\xff"), "take", "ber", padded)
    for mode in ("cer", "der"):
        bits(q, "refused", "take", mode, padded)
        bits(q, "refused", "skip", mode, padded)
        write(q, wholes(3, b"\3\xf8"), mode, "bits", padded)
    write(q, wholes(3, b"\3\xff"), "ber", "bits", padded)
    bits(q, known_bits(4, b"\x12\x30"), "content", "der", "81 03 04 12 30")
    # Case `string-cases`: in CER 999 octets and their count are written, and one octet more isn't.
    many = b"\xa5" * 1000
    for mode in MODES:
        write(q, whole(tlv(3, b"\0" + many[1:])), mode, "bit-slice", many[1:].hex())
    write(q, CER_UNSUPPORTED, "cer", "bit-slice", many.hex())
    write(q, whole(tlv(3, b"\0" + many)), "der", "bit-slice", many.hex())
    for mode in MODES:
        fits_cer, long = tlv(3, b"\0" + many[1:]).hex(), tlv(3, b"\0" + many).hex()
        front(q, f"ok 0/{told(many[1:])} 0", mode, "bits", fits_cer)
        front(q, "refused" if mode == "cer" else f"ok 0/{told(many)} 0", mode, "bits", long)
    write(q, whole(b"\x81\3\4\x12\x30"), "der", "bit-slice-as", "1230")


def known_octets(octets):
    x = told(octets)
    return f"{len(octets)} {truth(octets == b'')} {x} {x} true {x} {x}"


def octet_strings(q):
    read = lambda answer, mode, octets, call="take": q.ask(answer, "octets", call, mode, octets.hex())
    ab = unhex("24 80 04 01 61 04 00 04 01 62 00 00")
    # Case `string-cases`: segments in BER alone, one of them empty.
    for mode in MODES:
        read(known_octets(b"ab") if mode == "ber" else "refused", mode, ab)
        read(known_octets(b"abc"), mode, tlv(4, b"abc"))
    # X.690 8.7.3.2: the string `AB CD EF` in two pieces.
    pieces = unhex("24 80 04 02 AB CD 04 01 EF 00 00")
    for mode in MODES:
        read(known_octets(unhex("AB CD EF")) if mode == "ber" else "refused", mode, pieces)
    # In CER 1,000 octets stand in one piece, in 1,004 octets, and 1,001 in segments, in 1,011.
    few, many = b"a" * 1000, b"a" * 1000 + b"b"
    cut = constructed("cer", 0x24, segments(many))
    assert len(tlv(4, few)) == 1004 and len(cut) == 1011 and cut[:6] == unhex("24 80 04 82 03 E8")
    assert cut[-5:] == unhex("04 01 62 00 00")
    read(known_octets(few), "cer", tlv(4, few))
    read(known_octets(many), "cer", cut)
    read(known_octets(many), "ber", cut)
    read("refused", "der", cut)
    read("refused", "cer", tlv(4, many))
    read(known_octets(many), "der", tlv(4, many))
    for sizes in ((1000, 0), (1000,), (999, 1), (1000, 1001), (1, 1000)):
        parts = b"".join(tlv(4, b"a" * size) for size in sizes)
        read("refused", "cer", constructed("cer", 0x24, parts))
    read(known_octets(b"a" * 2000), "cer", constructed("cer", 0x24, segments(b"a" * 2000)))
    # Segments in each other, of both forms of length; a segment that is no OCTET STRING.
    read(known_octets(b"ab"), "ber", unhex("24 0C 24 80 04 01 61 00 00 24 03 04 01 62"))
    read("refused", "ber", unhex("24 03 0C 01 61"))
    # A string with an implicit tag; none where another tag is next.
    read(known_octets(b"a"), "ber", unhex("A0 03 04 01 61"), "implicit")
    read(known_octets(b"a"), "der", unhex("80 01 61"), "implicit")
    read("refused", "der", unhex("A0 03 04 01 61"), "implicit")
    q.ask(known_octets(b""), "octets", "opt", "ber", "a003040161")
    read(known_octets(b"a"), "ber", unhex("04 01 61"), "opt")
    # A string that is refused leaves its content failed, whether its segments were read before or not.
    for mode, octets, answer in (
        ("ber", "24 03 04 01 61", "()"),
        ("ber", "24 80 04 01 61 00 00", "()"),
        ("der", "24 03 04 01 61", "refused"),
        ("cer", "24 80 04 01 61 00 00", "refused"),
    ):
        read(answer, mode, unhex(octets), "goes-on")
    strings = (b"", b"a", b"ab", b"b", b"ba", b"a\xff")
    for one in strings:
        for other in strings:
            q.ask(sign(one, other), "octets", "order", one.hex(), other.hex())
    written_strings(q, few, many)


def written_strings(q, few, many):
    for mode in MODES:
        for octets in (b"", b"ab", few, many, many * 2):
            for kind, tag in (
                ("string-ref", 4), ("string", 4), ("slice", 4), ("string-ref-as", 0x81), ("string-as", 0x81), ("slice-as", 0x81),
            ):  # fmt: skip
                write(q, whole(string(mode, tag, octets)), mode, kind, octets)
        for octets in (b"", b"\0\xff", b"\7" * 300, few):
            write(q, wholes(4, octets), mode, "piece", octets)
        write(q, wholes(4, b"\0\xff"), mode, "octets", b"\0\xff")
        write(q, wholes(4, b""), mode, "octets", b"")
    # In one piece a string has at most 1000 octets in CER (X.690 9.2).
    write(q, f"CerUnsupported {CER_UNSUPPORTED} {CER_UNSUPPORTED}", "cer", "piece", many)
    for mode in ("ber", "der"):
        write(q, wholes(4, many), mode, "piece", many)
    # Values in a string, as OpenSSL writes it (`asn1parse -genconf`, OCTWRAP); and by hand after X.690 9.1, with values of
    # CER in a string with an implicit tag.
    for mode in ("ber", "der"):
        write(q, whole(unhex("04 09 30 07 01 01 FF 02 02 01 2C")), mode, "wrapped", "")
        write(q, whole(unhex("81 07 30 80 01 01 FF 00 00")), mode, "wrapped-as", "")
        write(q, CER_UNSUPPORTED, mode, "wrapped-twice", "")
    # A string around values is refused in CER, and so is one that holds such a string, written in CER.
    for kind in ("wrapped", "wrapped-as", "wrapped-twice"):
        write(q, CER_UNSUPPORTED, "cer", kind, "")


SETS = {
    "utf8": (12, None),
    "numeric": (18, "0123456789 "),
    "printable": (19, "ABCDEFGHIJKLMNOPQRSTUVWXYZabcdefghijklmnopqrstuvwxyz0123456789 '()+,-./:=?"),
    "ia5": (22, "".join(map(chr, range(128)))),
}


def has(kind, character):
    """X.680 41."""
    return SETS[kind][1] is None or character in SETS[kind][1]


def front_characters(kind, octets):
    """The characters in front of octets, and what is behind them."""
    found = []
    while octets:
        for size in range(1, 5):
            try:
                text = octets[:size].decode()
            except UnicodeDecodeError:
                continue
            break
        else:
            return found, octets
        if not has(kind, text[0]):
            return found, octets
        found.append(text[0])
        octets = octets[size:]
    return found, octets


# The examples of RFC 3629, section 7, and others.
TEXTS = [
    "A\u2262\u0391.", "\uD55C\uAD6D\uC5B4", "\uFEFF\U000233B4", "", "0123 89", "Az09 '()+,-./:=?", "a*b", "@", "1 2", "a?", "1a",
    "\u00e9", "Jones",
]  # fmt: skip
# A sequence that is too long, a surrogate, a number above 10FFFF, a sequence that ends too early, a second octet alone.
NO_UTF8 = ["c080", "61eda080", "f4908080", "61e282", "8061", "6180", "e08080", "f0808080", "ff"]


def texts(q):
    for kind, (tag, _) in SETS.items():
        q.ask(f"[UNIVERSAL {tag}] invalid character string", "text", kind, "tag", "")
        for text in TEXTS:
            is_text = all(has(kind, character) for character in text)
            q.ask(told(text.encode()) if is_text else "CharSetError", "text", kind, "spelled", text)
        octets = [text.encode() for text in TEXTS] + [unhex(text) for text in NO_UTF8]
        octets += [bytes([octet]) for octet in range(256)] + [b"\0\x7f@", b"a\x80"]
        for one in octets:
            found, behind = front_characters(kind, one)
            codes = listed(map(ord, found))
            q.ask(f"{codes} {truth(behind != b'')} {truth(behind == b'')}", "text", kind, "chars", one.hex())


def known_string(text):
    octets = text.encode()
    x = told(octets)
    return f"{len(octets)} {truth(text == '')} {x} {x} {x} true {listed(map(ord, text))} {text}"


def strings(q):
    for kind, (tag, _) in SETS.items():
        for text in TEXTS:
            is_text = all(has(kind, character) for character in text)
            q.ask(known_string(text) if is_text else "CharSet", "string", kind, "of", text)
            q.ask(known_string(text) if is_text else "CharSet", "string", kind, "given", text)
            q.ask(known_string(text) if is_text else "CharSetError", "string", kind, "new", "der", text.encode().hex())
        for octets in NO_UTF8:
            q.ask("CharSetError", "string", kind, "new", "der", octets)
        q.ask("invalid character string; out of memory", "string", kind, "errors")
    spellings(q)
    # Tags by X.680 8.4, table 1, and characters by its clause 41.
    for octets, kinds in (
        ("0C 02 C3 A9", ["utf8"]), ("0C 02 C0 80", []), ("12 03 31 20 32", ["numeric"]), ("12 01 61", []),
        ("13 03 61 2D 3F", ["printable"]), ("13 01 2A", []), ("16 02 40 7F", ["ia5"]), ("16 01 80", []), ("04 01 61", []),
    ):  # fmt: skip
        for kind in SETS:
            for mode in MODES:
                front(q, f"ok {told(unhex(octets)[2:])} 0" if kind in kinds else "refused", mode, kind, octets)
    # One is read where it is next, and none behind it.
    q.ask("[Some(1), None]", "string", "ia5", "opt", "der", "160161")
    q.ask("[None, None]", "string", "printable", "opt", "der", "160161")
    # An implicit tag stands in place of the string's own (X.690 8.14).
    q.ask(known_string("Jones"), "string", "ia5", "implicit", "der", "82054a6f6e6573")
    q.ask("refused", "string", "numeric", "implicit", "der", "82054a6f6e6573")
    # A string that is refused leaves its content failed, though all of its octets were read.
    for mode in MODES:
        q.ask("()", "string", "printable", "goes-on", mode, "130161")
        q.ask("refused", "string", "printable", "goes-on", mode, "13012a")
    for one in ("ab", "b", "", "a"):
        for other in ("ab", "b", ""):
            name = {"<": "Less", "=": "Equal", ">": "Greater"}[sign(one, other)]
            q.ask(f"{sign(one, other)} Some({name})", "string", "ia5", "order", one, other)
    written_texts(q)


def spellings(q):
    """X.690 8.23's example, with the tag of a PrintableString; and a character of UTF-8 that is cut between segments."""
    for octets, *answers in (
        ("13 05 4A 6F 6E 65 73", True, True, True),
        ("33 09 04 03 4A 6F 6E 04 02 65 73", True, False, False),
        ("33 80 04 03 4A 6F 6E 04 02 65 73 00 00", True, False, False),
    ):
        for mode, is_read in zip(MODES, answers):
            answer = known_string("Jones") if is_read else "refused"
            q.ask(answer, "string", "printable", "take", mode, unhex(octets).hex())
    q.ask(known_string("\u00e9"), "string", "utf8", "take", "ber", unhex("2C 06 04 01 C3 04 01 A9").hex())


def written_texts(q):
    # As X.690 8.14's example has it, with the tag of an IA5String.
    for kind, octets in (("ia5-ref", "16"), ("ia5-ref-as", "43"), ("ia5", "16"), ("ia5-as", "82")):
        for mode in MODES:
            write(q, whole(unhex(octets + "05 4A 6F 6E 65 73")), mode, kind, "Jones")
    # In CER 1,000 octets stand in one piece, and 1,001 in segments (X.690 9.2); in DER all stand in one.
    for count in (1000, 1001):
        for mode in MODES:
            write(q, whole(string(mode, 0x13, b"a" * count)), mode, "text", "a" * count)
            write(q, whole(string(mode, 0x16, b"a" * count)), mode, "ia5", "a" * count)


def ask(q):
    identifiers(q)
    bit_strings(q)
    octet_strings(q)
    texts(q)
    strings(q)
