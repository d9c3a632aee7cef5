"""Questions about what is written of numbers, identifiers and lists of values, for tests/questions/codec.py.

The answers come from the writers of `codec_spelled.py`, from examples of X.690, and from the worked case `codec-values`.
"""

from codec_spelled import (
    BETWEEN, CER_UNSUPPORTED, EDGES, IDENTIFIERS, MODES, TYPES, constructed, fits, front, integer, string, tlv, told, unhex, whole,
    wholes, write,
)  # fmt: skip


def writing(q):
    for number in EDGES + BETWEEN:
        for kind in TYPES:
            if fits(number, kind):
                for mode in MODES:
                    write(q, wholes(2, integer(number)), mode, kind, str(number))
    for mode in MODES:
        # Case `codec-values`: 0xA2345678 as u32 has the INTEGER content `00 A2 34 56 78`.
        write(q, wholes(2, unhex("00 A2 34 56 78")), mode, "u32", str(0xA2345678))
        write(q, wholes(2, unhex("00 80")), mode, "u8", "128")
        write(q, wholes(2, unhex("FF 7F")), mode, "i32", "-129")
        # X.690 8.2.2, 11.1 and 8.8.2.
        write(q, wholes(1, b"\xff"), mode, "bool", "true")
        write(q, wholes(1, b"\0"), mode, "bool", "false")
        write(q, wholes(5, b""), mode, "null", "")
        for number in (0, -1, 128, -129, 2**160, -(2**160)):
            write(q, wholes(2, integer(number)), mode, "integer", integer(number))
        for number in (0, 128, 2**160):
            write(q, wholes(2, integer(number)), mode, "unsigned", integer(number))
        for octets in IDENTIFIERS.values():
            write(q, wholes(6, unhex(octets)), mode, "oid", unhex(octets))
    # 2^160, one above what twenty octets hold from 0 up, in DER.
    for kind in ("integer", "unsigned"):
        front(q, f"ok {told(integer(2**160))} 0", "der", kind, tlv(2, integer(2**160)).hex())


def lists(q):
    strings = unhex("04 01 01 04 00 04 02 02 03")
    pair = unhex("04 01 01 04 02 02 03")
    twelve = unhex("04 01 01 04 01 02 04 01 01 04 01 01 04 01 02 04 01 01 04 01 02 04 01 01 04 01 01 04 01 02")
    both = unhex("01 01 FF 05 00")
    for mode in MODES:
        write(q, whole(constructed(mode, 0x30, strings)), mode, "list", "three")
        write(q, whole(constructed(mode, 0x31, b"")), mode, "list", "none")
        write(q, whole(constructed(mode, 0xA1, twelve)), mode, "list", "twelve")
        for kind, counts in (("tuples", range(1, 7)), ("long-tuples", range(7, 12))):
            parts = [unhex("02 01 01"), unhex("02 01 02"), unhex("01 01 FF")] * 4
            each = (whole(constructed(mode, 0x30, b"".join(parts[:count]))) for count in counts)
            write(q, " ".join(each), mode, "list", kind)
        write(q, whole(unhex("02 01 01 02 01 01 01 01 FF")), mode, "list", "choices")
        inside = constructed(mode, 0xA2, constructed(mode, 0xA0, b"\1\1\xff"))
        others = unhex("81 02 01 2C 81 02 07 FF")
        write(q, whole(constructed(mode, 0xA1, inside) + others), mode, "list", "tags")
        write(q, "Err(TooLong) Err(TooLong) x", mode, "list", "huge")
        # Captured in DER, these stand in BER, and not in CER.
        write(q, CER_UNSUPPORTED if mode == "cer" else whole(tlv(0x30, both)), mode, "list", "captured")
        write(q, whole(constructed(mode, 0x30, unhex("04 02 01 02 04 02 03 04"))), mode, "walk", "names")
        write(q, whole(constructed(mode, 0x30, unhex("02 01 01 02 01 02"))), mode, "walk", "numbers")
        write(q, whole(constructed(mode, 0x30, unhex("01 01 FF 01 01 00"))), mode, "walk", "truths")
        # A writer that refuses behind each of the octets has taken these.
        octets = constructed(mode, 0x30, pair)
        for room in range(len(octets)):
            write(q, f"Ok({len(octets)}) Err(Write) {told(octets[:room])}", mode, "list", "pair", room)
        write(q, whole(octets), mode, "list", "pair", len(octets))
    # 300 is `01 2C`, in two octets behind `82`; 2^32 is too long.
    write(q, "Ok(()) Err(TooLong) x3082012c Ok(304) Err(TooLong)", "der", "list", "headers")
    write(q, "Some(CerUnsupported) x0500", "der", "list", "refused")
    write(q, "no form in CER; too long; the writer refused; out of memory", "der", "list", "errors")


def refusing_writers(q):
    """A writer with too little room, for values of each kind."""
    many = b"a" * 1001
    for kind, word, octets in (
        ("string-ref", many.hex(), string("cer", 4, many)),
        ("ia5", many.decode(), string("cer", 0x16, many)),
    ):
        for room in (0, 1, 2, 5, 6, 7, 1005, 1006, 1008, 1010):
            write(q, f"Ok(1011) Err(Write) {told(octets[:room])}", "cer", kind, word, room)
    for room in range(11):
        octets = unhex("04 09 30 07 01 01 FF 02 02 01 2C")
        write(q, f"Ok(11) Err(Write) {told(octets[:room])}", "der", "wrapped", "", room)


def ask(q):
    writing(q)
    lists(q)
    refusing_writers(q)
