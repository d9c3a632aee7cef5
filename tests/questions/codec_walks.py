"""Questions about values that are gone past, for tests/questions/codec.py.

The answers come from a reader of this module after X.690 8.1, 9.1 and 10.1. The questions are random trees as they are
spelled in each mode, the same with an octet changed, left out or put in, all short rows of octets that mean something in
a header, and values deep in each other. Each is asked in each mode.
"""

import itertools
import random

MODES = ("ber", "cer", "der")
# How many values in each other are gone past without memory.
MOST_DEPTH = 8
# Octets that mean something in a header: identifiers of both forms and of long tags, lengths of each form, and zero.
MARKS = (0x00, 0x01, 0x02, 0x1F, 0x24, 0x30, 0x3F, 0x80, 0x81, 0x82)
rng = random.Random(8825)


class Refused(Exception):
    """No value stands there."""


class Reader:
    """Octets that are read from their front; `end` is where what may be read ends."""

    def __init__(self, mode, octets):
        self.mode, self.octets, self.at = mode, octets, 0

    def octet(self, end):
        if self.at >= end:
            raise Refused("no octet is left")
        self.at += 1
        return self.octets[self.at - 1]

    def identifier(self, end):
        """Whether the value is constructed (8.1.2)."""
        first = self.octet(end)
        kind, is_constructed, number = first >> 6, bool(first & 0x20), first & 0x1F
        if number == 31:
            number = 0
            for count in range(3):
                octet = self.octet(end)
                if count == 0 and octet == 0x80:
                    raise Refused("a long number that begins with zeros (8.1.2.4.2 c)")
                number = number << 7 | octet & 0x7F
                if octet < 0x80:
                    break
            else:
                raise Refused("a number of more than three octets")
            if number < 31:
                raise Refused("a small number in the long form (8.1.2.2)")
        if (kind, number) == (0, 0):
            raise Refused("the tag of end-of-contents octets (8.1.5)")
        return is_constructed

    def length(self, end):
        """The length, None where it is indefinite (8.1.3)."""
        first = self.octet(end)
        if first < 0x80:
            return first
        if first == 0x80:
            return None
        if first > 0x84:
            raise Refused("a length of more than four octets")
        digits = bytes(self.octet(end) for _ in range(first - 0x80))
        size = int.from_bytes(digits, "big")
        if self.mode != "ber" and (size < 128 or digits[0] == 0):
            raise Refused("a length in more octets than needed (9.1, 10.1)")
        return size

    def value(self, end):
        """The next value, with all that is in it."""
        is_constructed = self.identifier(end)
        size = self.length(end)
        if size is not None and self.at + size > end:
            raise Refused("a content that goes on behind what is around it")
        if not is_constructed:
            if size is None:
                raise Refused("a primitive value of indefinite length (8.1.3.2)")
            self.at += size
            return
        if (size is None) if self.mode == "der" else (size is not None and self.mode == "cer"):
            raise Refused("another form of length (9.1, 10.1)")
        if size is None:
            while self.octets[self.at : min(self.at + 2, end)] != b"\0\0":
                self.value(end)
            self.at += 2
        else:
            behind = self.at + size
            while self.at < behind:
                self.value(behind)


def answer(mode, octets):
    """What the program has to answer."""
    if not octets:
        return "end\trefused"
    reader = Reader(mode, octets)
    try:
        reader.value(len(octets))
    except Refused:
        return "refused\trefused"
    return f"{reader.at}\t{reader.at}"


def spelled_identifier(kind, is_constructed, number):
    first = kind << 6 | is_constructed << 5
    if number < 31:
        return bytes([first | number])
    digits = [number & 0x7F]
    while number := number >> 7:
        digits.append(number & 0x7F | 0x80)
    return bytes([first | 31, *reversed(digits)])


def spelled_length(mode, size):
    shortest = max(1, (size.bit_length() + 7) // 8)
    if mode == "ber" and rng.random() < 0.4:
        count = rng.randint(shortest, 4)
    elif size < 128:
        return bytes([size])
    else:
        count = shortest
    return bytes([0x80 + count]) + size.to_bytes(count, "big")


def random_tag():
    kind = rng.choice((0, 0, 0, 1, 2, 2, 3))
    number = rng.choice((1, 2, 3, 4, 5, 6, 12, 16, 17, 30, 31, 127, 128, 16383, 16384, 2097151))
    return kind, number


def spelled(mode, levels):
    """A random tree of at most so many levels, as it is spelled in a mode."""
    kind, number = random_tag()
    if levels == 0 or rng.random() < 0.4:
        size = rng.choice((0, 0, 1, 1, 2, 3, 5, 9, 127, 128) if rng.random() < 0.1 else (0, 1, 2, 3, 5))
        content = bytes(rng.choice(MARKS) if rng.random() < 0.5 else rng.randrange(256) for _ in range(size))
        return spelled_identifier(kind, False, number) + spelled_length(mode, size) + content
    content = b"".join(spelled(mode, levels - 1) for _ in range(rng.choice((0, 1, 1, 2, 3))))
    front = spelled_identifier(kind, True, number)
    if mode == "cer" or mode == "ber" and rng.random() < 0.5:
        return front + b"\x80" + content + b"\0\0"
    return front + spelled_length(mode, len(content)) + content


def damaged(octets):
    """The octets with one changed, left out, or put in, cut short, or with others behind them."""
    at = rng.randrange(len(octets))
    octet = rng.choice(MARKS) if rng.random() < 0.6 else rng.randrange(256)
    how = rng.randrange(6)
    if how == 0:
        return octets[:at] + octets[at + 1 :]
    if how == 1:
        return octets[:at] + bytes([octet]) + octets[at:]
    if how == 2:
        return octets[:at]
    if how == 3:
        return octets + bytes([octet])
    if how == 4:
        return octets[:at] + bytes([octets[at] ^ 1 << rng.randrange(8)]) + octets[at + 1 :]
    return octets[:at] + bytes([octet]) + octets[at + 1 :]


def nested(levels, is_definite, inner):
    """Values in each other around the inner octets."""
    octets = inner
    for _ in range(levels):
        if is_definite:
            size = len(octets)
            octets = b"\x30" + (bytes([size]) if size < 128 else b"\x81" + bytes([size])) + octets
        else:
            octets = b"\x30\x80" + octets + b"\0\0"
    return octets


def spellings():
    for size in range(4):
        for row in itertools.product(MARKS, repeat=size):
            yield bytes(row)
    for first in range(256):
        yield bytes([first, 0])
        yield bytes([0x30, first, 5, 0, 0, 0])
        yield bytes([0x1F, first, 0])
        yield bytes([0x1F, 0x81, first, 0])
        yield bytes([0x1F, 0xFF, 0xFF, first, 0])
    for _ in range(800):
        yield bytes(rng.choice(MARKS) for _ in range(rng.randint(4, 9)))
    for mode in MODES:
        for _ in range(250):
            octets = spelled(mode, rng.randint(0, 5))
            yield octets
            yield octets + spelled(mode, 1)
            for _ in range(2):
                yield damaged(octets)
    for levels in range(MOST_DEPTH - 2, MOST_DEPTH + 3):
        for is_definite in (False, True):
            for inner in (b"", b"\x05\x00", b"\x05\x00\x02\x01\x07", b"\x05"):
                yield nested(levels, is_definite, inner)
    for size in (127, 128, 255, 256):
        for count in (1, 2, 3, 4):
            if size < 256**count:
                front = b"\x04" + bytes([0x80 + count]) + size.to_bytes(count, "big")
                yield front + bytes(size)
                yield front + bytes(size - 1)
        yield b"\x04" + bytes([size & 0x7F]) + bytes(size)


def ask(q):
    """Asks of each row of octets once in each mode."""
    for octets in dict.fromkeys(spellings()):
        for mode in MODES:
            q.ask(answer(mode, octets), "walks", mode, octets.hex())
