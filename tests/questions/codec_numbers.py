"""Questions about numbers in contents, and numbers of any size, for tests/questions/codec.py.

The answers come from Python's own integers, and from the worked cases `string-cases` and `codec-values`.
"""

import random

from codec_spelled import BETWEEN, EDGES, MODES, TYPES, as_integer, fits, integer, listed, sign, some, told, truth, unhex

rng = random.Random(690)

NO_INTEGERS = ["", "0005", "0000", "007f", "007fff", "ffff", "ff80", "ff8000", "ffff00", "00" * 18]


def by_type(octets, types=TYPES):
    """The numbers of content octets, by type; `()` for the types that aren't asked."""
    number = as_integer(octets)
    return " ".join(("()" if kind not in types else str(number) if fits(number, kind) else "refused") for kind in TYPES)


UNSIGNED = [kind for kind in TYPES if kind[0] == "u"]


def numbers(q):
    contents = [integer(number) for number in EDGES + BETWEEN] + [unhex(octets) for octets in NO_INTEGERS]
    contents += [rng.randbytes(rng.randrange(1, 19)) for _ in range(60)]
    for octets in contents:
        for mode in MODES:
            q.ask(by_type(octets), "number", "primitive", mode, octets.hex())
            q.ask(by_type(octets), "number", "integer", mode, octets.hex())
            q.ask(by_type(octets, UNSIGNED), "number", "unsigned", mode, octets.hex())
    # Case `string-cases`: `00 80` is 128 as u8 and refused as i8.
    for mode in MODES:
        q.ask("128 128 128 128 128 refused 128 128 128 128", "number", "integer", mode, "0080")
    for octet in range(256):
        q.ask(by_type(bytes([octet])), "number", "primitive", "der", bytes([octet]).hex())
    for first in range(256):
        q.ask(digest(bytes([first, second]) for second in range(256)), "number", "all", str(first), "2")
    for first in (0, 1, 127, 128, 255):
        octets = (bytes([first, second, third]) for second in range(256) for third in range(256))
        q.ask(digest(octets), "number", "all", str(first), "3")


def digest(contents):
    """A digest of what `u8`, `i8` and `u16` read of contents, in their order."""
    seed = 0
    for octets in contents:
        number = as_integer(octets)
        octet = number + 1 if fits(number, "u8") else 0
        signed = number + 129 if fits(number, "i8") else 0
        wide = number + 1 if fits(number, "u16") else 0
        seed = (seed * 1_000_003 + octet + (signed << 9) + (wide << 18)) % 2**64
    return str(seed)


def known_integer(number):
    signs = listed(truth(sign) for sign in (number < 0, number == 0, number > 0))
    types = " ".join(some(number if fits(number, kind) else None) for kind in TYPES)
    return f"{told(integer(number))} {signs} {types}"


def known_unsigned(number):
    types = " ".join(some(number if fits(number, kind) else None) if kind[0] == "u" else "()" for kind in TYPES)
    return f"{told(integer(number))} {truth(number == 0)} {types}"


def some_integers():
    """Numbers of all sizes, the edges of the types among them."""
    made = [sign * rng.getrandbits(8 * size) for size in range(1, 60, 3) for sign in (-1, 1)]
    return sorted({*made, *EDGES[:8], *EDGES[-8:], -129, -128, -1, 0, 1, 127, 128, 255, 256, -255, -256, -257, 32768, -32769})


def integers(q):
    for number in EDGES + BETWEEN + some_integers():
        q.ask(known_integer(number), "integer", "read", integer(number).hex())
        if number >= 0:
            q.ask(known_unsigned(number), "unsigned", "read", integer(number).hex())
    for number in EDGES + BETWEEN:
        for kind in TYPES:
            if fits(number, kind):
                q.ask(known_integer(number), "integer", "from", kind, str(number))
                if kind[0] == "u":
                    q.ask(known_unsigned(number), "unsigned", "from", kind, str(number))
    for octets in NO_INTEGERS:
        q.ask("refused", "integer", "read", octets)
        q.ask("refused", "unsigned", "read", octets)
        q.ask("Invalid", "unsigned", "slice", octets)
        q.ask("Invalid", "unsigned", "bytes", octets)
    for number in (-1, -128, -256, -(2**200)):
        octets = integer(number).hex()
        for call, answer in (("read", "refused"), ("slice", "Invalid"), ("bytes", "Invalid"), ("integer", "OverflowError")):
            q.ask(answer, "unsigned", call, octets)
    for number in (0, 1, 128, 40000, 2**128, 2**160):
        octets = integer(number)
        for call in ("slice", "bytes", "integer"):
            q.ask(told(octets), "unsigned", call, octets.hex())
        q.ask(f"{told(octets)} true true", "unsigned", "copied", octets.hex())
        q.ask(f"{told(octets)} Some(Equal)", "integer", "copied", octets.hex())
    # Case `codec-values`: 0xA2345678 as u32.
    a = 0xA2345678
    unsigned, signed = " ".join([f"Some({a})"] * 3), " ".join([f"Some({a})"] * 2)
    q.ask(f"x00a2345678 [false, false, true] None None {unsigned} None None None {signed}", "integer", "from", "u32", str(a))
    q.ask("invalid integer; out of memory; integer out of range", "integer", "errors")


def orders(q):
    made = some_integers()
    signs = "".join(sign(one, other) for one in made for other in made)
    q.ask(signs, "integer", "order", *(integer(number).hex() for number in made))
    for one in (0, 7, 40000, 2**64 - 1, 2**128 - 1):
        for other in (0, 7, 40000, 2**128 - 1):
            name = {"<": "Less", "=": "Equal", ">": "Greater"}[sign(one, other)]
            octets = integer(one).hex(), integer(other).hex()
            q.ask(f"{sign(one, other)} Some({name})", "unsigned", "order", *octets)
            q.ask(truth(one == other), "integer", "equals", *octets)
    q.ask("false", "integer", "equals", integer(-25536).hex(), integer(40000).hex())


def ask(q):
    numbers(q)
    integers(q)
    orders(q)
