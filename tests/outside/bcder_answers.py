#!/usr/bin/env python3
"""Compares what the codec reads with what the Rust crate bcder reads: tests/outside/bcder_answers.py BCDER [FOLDER]

BCDER is the folder that `dpkg -x` made of Debian's packages librust-bcder-dev, librust-bytes-dev and
librust-smallvec-dev. In FOLDER, or a temporary one, bcder_answers.rs.in is built with them by cargo; the other
program is `questions`, which tests/lib/programs.py builds of tests/program.

Both answer the same questions, in each mode: of each kind of value on 10,000 octet strings, half of them made of
values, a third of these changed in one place, half of them chance; on all octet strings of up to two octets; on all of
three octets that begin with one of the tags of TAGS; and of UTF8Strings with all contents of two octets, and those of
three and four octets of EDGES. Each answer that differs has to be of one of the CLASSES: a test by this script's own
reading of the octets, with the reason. Exits with 1 where one isn't.

With --record, some 2,000 questions on which both agree are written to bcder_answers.txt, with the Rust crate's answers;
tests/questions/codec.py asks them in front of its own.
"""

import collections
import itertools
import os
import pathlib
import random
import shutil
import string
import subprocess
import sys
import tempfile
import typing

HERE = pathlib.Path(__file__).resolve().parent
sys.dont_write_bytecode = True
sys.path.insert(0, str(HERE.parent / "lib"))

from programs import QUESTIONS, unproved  # noqa: E402

RECORD = HERE.parent / "questions" / "bcder_answers.txt"
MODES = ("ber", "cer", "der")
INTEGERS = ("i8", "u8", "i64", "u64", "u128", "integer", "unsigned")
EXTENTS = ("skip", "capture")
TEXTS = {"utf8": 12, "numeric": 18, "printable": 19, "ia5": 22}
KINDS = (*INTEGERS, "boolean", "null", "oid", "bits", "octets", *TEXTS, *EXTENTS)
COUNT = 10_000
RECORDED = 20

# The first octet of a primitive value of a kind.
FIRST = {**{kind: 2 for kind in INTEGERS}, "boolean": 1, "null": 5, "oid": 6, "bits": 3, "octets": 4, **TEXTS}

# First octets of strings of three octets, and the kinds that are asked of these.
TAGS = {
    0x00: EXTENTS,
    0x01: ("boolean", *EXTENTS),
    0x02: (*INTEGERS, *EXTENTS),
    0x03: ("bits", *EXTENTS),
    0x04: ("octets", *EXTENTS),
    0x05: ("null", *EXTENTS),
    0x06: ("oid", *EXTENTS),
    0x0C: ("utf8", *EXTENTS),
    0x12: ("numeric", *EXTENTS),
    0x13: ("printable", *EXTENTS),
    0x16: ("ia5", *EXTENTS),
    0x1F: EXTENTS,
    0x20: EXTENTS,
    0x22: ("integer", "u64", *EXTENTS),
    0x24: ("octets", *EXTENTS),
    0x2C: ("utf8", *EXTENTS),
    0x30: EXTENTS,
    0x3F: EXTENTS,
    0xA0: EXTENTS,
}

# Octets at which the forms of UTF-8 begin and end (RFC 3629 4), and those beside them.
EDGES = bytes.fromhex("00 7f 80 8f 90 9f a0 bf c0 c1 c2 df e0 e1 ec ed ee ef f0 f1 f3 f4 f5 f7 f8 ff")

# The characters of restricted strings (X.680 41): all, but of UTF8Strings the first and last of each length.
CHARACTERS = {
    "utf8": "a\0\x7f\x80\u07ff\u0800\ud7ff\ue000\uffff\U00010000\U0010ffff",
    "numeric": string.digits + " ",
    "printable": string.ascii_letters + string.digits + " '()+,-./:=?",
    "ia5": "".join(map(chr, range(128))),
}

CARGO = """[package]
name = "bcder_answers"
version = "0.0.0"
edition = "2021"

[dependencies]
bcder = {{ path = "{registry}/{bcder}" }}

[patch.crates-io]
bytes = {{ path = "{registry}/{bytes}" }}
smallvec = {{ path = "{registry}/{smallvec}" }}
"""


class Maker:
    """Makes octets: values, mostly well-formed in some mode, and changes in them."""

    def __init__(self, seed):
        self.rng = random.Random(seed)

    def some(self, most):
        return self.rng.randbytes(self.rng.randrange(most + 1))

    def length(self, size):
        """Length octets: mostly the shortest."""
        if self.rng.random() < 0.9:
            return shortest(size)
        count = self.rng.choice([1, 2, 3, 4])
        return bytes([128 + count]) + size.to_bytes(4, "big")[-count:]

    def value(self, tag, content, constructed=False):
        """A value, with an indefinite length now and then where that is allowed."""
        first = tag | (0x20 if constructed else 0)
        if constructed and self.rng.random() < 0.5:
            return bytes([first, 0x80]) + content + b"\0\0"
        return bytes([first]) + self.length(len(content)) + content

    def integer(self):
        if self.rng.random() < 0.15:
            return self.value(2, self.some(18))
        bits = self.rng.choice([1, 7, 8, 9, 15, 16, 31, 32, 63, 64, 65, 127, 128, 129])
        number = self.rng.choice([-1, 1]) * self.rng.choice([2**bits - 1, 2**bits, self.rng.getrandbits(bits)])
        return self.value(2, number.to_bytes(number.bit_length() // 8 + 1, "big", signed=True))

    def boolean(self):
        return self.value(1, bytes([self.rng.choice([0, 0xFF, 1, 0x80])]))

    def null(self):
        return self.value(5, b"" if self.rng.random() < 0.9 else self.some(2))

    def oid(self):
        numbers = [0, 39, 40, 79, 80, 127, 128, 2**14, 2**20, 2**27, 2**32 - 1, 2**35]
        parts = [self.rng.choice(numbers) for _ in range(4)]
        return self.value(6, b"".join(base_128(part) for part in parts[: self.rng.randrange(1, 5)]))

    def bits(self):
        unused = self.rng.choice([0, 0, 1, 3, 7, 8])
        octets = bytearray(self.some(5))
        if octets and unused < 8 and self.rng.random() < 0.7:
            octets[-1] &= 0xFF << unused & 0xFF
        return self.value(3, bytes([unused]) + octets)

    def octets(self, depth=0):
        if depth > 2 or self.rng.random() < 0.6:
            return self.value(4, self.some(6))
        parts = b"".join(self.octets(depth + 1) for _ in range(self.rng.randrange(4)))
        return self.value(4, parts, True)

    def text(self):
        """A restricted string, with a character of any other now and then, primitive or in segments cut anywhere."""
        kind = self.rng.choice(list(TEXTS))
        others = "".join(CHARACTERS.values()) if self.rng.random() < 0.3 else CHARACTERS[kind]
        octets = "".join(self.rng.choice(others) for _ in range(self.rng.randrange(5))).encode()
        if self.rng.random() < 0.6:
            return self.value(TEXTS[kind], octets)
        at = self.rng.randrange(len(octets) + 1)
        return self.value(TEXTS[kind], self.value(4, octets[:at]) + self.value(4, octets[at:]), True)

    def cut(self):
        """An OCTET STRING or a restricted string of segments of about 1000 octets (X.690 9.2)."""
        sizes = [1000] * self.rng.randrange(1, 3) + [self.rng.choice([0, 1, 999, 1000, 1001])]
        if self.rng.random() < 0.3:
            self.rng.shuffle(sizes)
        octet = self.rng.choice([b"\0", b"0"])
        parts = b"".join(b"\4" + shortest(size) + octet * size for size in sizes)
        return bytes([0x20 | self.rng.choice([4, 4, *TEXTS.values()]), 0x80]) + parts + b"\0\0"

    def nested(self, depth=0):
        """A value of any kind, or some in each other."""
        if depth > 4 or self.rng.random() < 0.3:
            return self.rng.choice([self.integer, self.boolean, self.null, self.oid, self.bits, self.octets])()
        tag = self.rng.choice([0x10, 0x11, 0x80, 0xA0, 0x5F, 0x1F])
        content = b"".join(self.nested(depth + 1) for _ in range(self.rng.randrange(4)))
        if tag & 0x1F != 0x1F:
            return self.value(tag, content, True)
        number = self.rng.choice([b"\x1f", b"\x7f", b"\x81\0", b"\xff\x7f", b"\x81\x80\0", b"\x1e", b"\x80\1"])
        return bytes([tag | 0x20]) + number + self.length(len(content)) + content

    def changed(self, octets):
        """The octets with one octet changed, left out or put in, or cut."""
        at = self.rng.randrange(len(octets) + 1)
        way = self.rng.randrange(4)
        if way == 0:
            return octets[:at]
        if way == 1:
            return octets[:at] + octets[at + 1 :]
        octet = bytes([self.rng.choice([0, 1, 2, 0x7F, 0x80, 0x81, 0xFF, self.rng.randrange(256)])])
        return octets[:at] + octet + octets[at + (way == 2) :]

    def made(self):
        """A value with what is behind it, changed in one of three."""
        kinds = [self.integer, self.boolean, self.null, self.oid, self.bits, self.octets, self.nested]
        kinds += [self.integer, self.text, self.text]
        octets = self.cut() if self.rng.random() < 0.02 else self.rng.choice(kinds)()
        if self.rng.random() < 1 / 3:
            octets = self.changed(octets)
        return octets + self.rng.choice([b"", b"", self.some(3)])

    def chance(self):
        """Chance, behind an octet that is some tag in half of them."""
        octets = self.some(12)
        return bytes([self.rng.choice(list(TAGS))]) + octets if self.rng.random() < 0.5 else octets

    def strings(self, count):
        return [self.made() if index % 2 == 0 else self.chance() for index in range(count)]


def shortest(size):
    """The shortest length octets (X.690 10.1)."""
    octets = size.to_bytes((size.bit_length() + 7) // 8, "big")
    return bytes([size]) if size < 128 else bytes([128 + len(octets)]) + octets


def base_128(number):
    """A subidentifier (X.690 8.19.2)."""
    octets = [number % 128]
    while number >= 128:
        number //= 128
        octets.append(128 + number % 128)
    return bytes(reversed(octets))


def chance_questions(count):
    for octets in Maker(690).strings(count):
        yield from itertools.product(MODES, KINDS, [octets])


def short_questions():
    for size in range(3):
        for octets in itertools.product(range(256), repeat=size):
            yield from itertools.product(MODES, KINDS, [bytes(octets)])


def three_questions(first):
    for rest in itertools.product(range(256), repeat=2):
        yield from itertools.product(MODES, TAGS[first], [bytes([first, *rest])])


def utf8_questions():
    """Contents of UTF8Strings: all of two octets, and those of three and four octets of EDGES."""
    contents = [range(256)] * 2, [EDGES] * 3, [EDGES] * 4
    for octets in itertools.chain.from_iterable(itertools.product(*octets) for octets in contents):
        yield from itertools.product(MODES, ["utf8"], [bytes([TEXTS["utf8"], len(octets), *octets])])


# What the Rust crate's headers are, as this script reads them.


def read_tag(octets, at):
    """The octets of a tag, the form bit cleared, and where they end."""
    end = at + 1
    if octets[at] & 0x1F == 0x1F:
        while octets[end] & 0x80 and end < at + 3:
            end += 1
        end += 1
    return bytes([octets[at] & 0xDF]) + octets[at + 1 : end], end


def read_length(octets, at):
    """The length, None where it is indefinite, and where its octets end."""
    if octets[at] < 0x80:
        return octets[at], at + 1
    if octets[at] == 0x80:
        return None, at + 1
    end = at + 1 + octets[at] - 128
    if len(octets) < end:
        raise IndexError
    return int.from_bytes(octets[at + 1 : end], "big"), end


class Header(typing.NamedTuple):
    """A header, and where its length octets and its content begin."""

    tag: bytes
    constructed: bool
    length: typing.Optional[int]
    length_at: int
    at: int


def headers(octets):
    """Each header of the value in front and the values in it."""
    at, ends = 0, []
    while True:
        constructed = octets[at] & 0x20 != 0
        tag, length_at = read_tag(octets, at)
        length, at = read_length(octets, length_at)
        yield Header(tag, constructed, length, length_at, at)
        if constructed:
            ends.append(None if length is None else at + length)
        elif tag == b"\0" and ends and ends[-1] is None:
            ends.pop()
        else:
            at += length or 0
        while ends and ends[-1] == at:
            ends.pop()
        if not ends or at >= len(octets):
            return


def is_whole(octets):
    """Whether a whole value stands in front."""
    try:
        ends = [header.at + (header.length or 0) for header in headers(octets)]
    except IndexError:
        return False
    return max(ends) <= len(octets)


def content(octets):
    """The content octets of a primitive value in front."""
    header = next(headers(octets))
    return octets[header.at : header.at + header.length]


def joined(octets):
    """The octets of the string in front, those of its segments joined (X.690 8.7.3)."""
    parts = [header for header in headers(octets) if header.tag != b"\0" and not header.constructed]
    return b"".join(octets[part.at : part.at + part.length] for part in parts)


def segment_sizes(octets):
    """How many octets each primitive segment of the string in front has."""
    _, *parts = headers(octets)
    return [part.length for part in parts if part.tag == b"\4" and not part.constructed]


def is_text(kind, octets):
    """Whether octets are a text of that kind."""
    try:
        text = octets.decode()
    except UnicodeDecodeError:
        return False
    return kind == "utf8" or all(character in CHARACTERS[kind] for character in text)


def subidentifiers(octets):
    """The subidentifiers of an object identifier, which ends with one (X.690 8.19.2)."""
    parts = [b""]
    for octet in octets:
        parts[-1] += bytes([octet])
        if octet < 128:
            parts.append(b"")
    return parts[:-1]


def component_texts(octets):
    """The components of an object identifier, one more than subidentifiers (X.690 8.19.4)."""
    numbers = [sum(octet % 128 << 7 * at for at, octet in enumerate(reversed(part))) for part in subidentifiers(octets)]
    first = min(numbers[0] // 40, 2)
    numbers[:1] = [first, numbers[0] - 40 * first]
    return ["(not implemented)" if number >= 2**32 else str(number) for number in numbers]


# Why answers may differ. Each test sees the question, the Rust crate's answer (`theirs`) and this one's (`ours`).


def at_the_end(mode, kind, octets, theirs, ours):
    return kind == "skip" and octets == b"" and (theirs, ours) == ("refused", "ok none 0")


def panics(mode, kind, octets, theirs, ours):
    return theirs == "panic" and ours == "refused" and not is_whole(octets)


def tag_forms(mode, kind, octets, theirs, ours):
    def is_other(tag):
        return len(tag) > 1 and (tag[1] == 0x80 or len(tag) == 2 and tag[1] < 31)

    return refused_here(octets, theirs, ours) and any(is_other(header.tag) for header in headers(octets))


def constructed_ends(mode, kind, octets, theirs, ours):
    return refused_here(octets, theirs, ours) and any(
        header.tag == b"\0" and header.constructed for header in headers(octets)
    )


def long_ends(mode, kind, octets, theirs, ours):
    def is_end(header):
        return header.tag == b"\0" and not header.constructed and header.length == 0

    if not refused_here(octets, theirs, ours):
        return False
    return any(is_end(header) and octets[header.length_at] != 0 for header in headers(octets))


def length_forms(mode, kind, octets, theirs, ours):
    def is_other(form, length):
        return form and (mode == "cer" and length is not None or mode == "der" and length is None)

    if kind not in EXTENTS or not refused_here(octets, theirs, ours):
        return False
    return any(is_other(header.constructed, header.length) for header in headers(octets))


def unused_counts(mode, kind, octets, theirs, ours):
    if kind != "bits" or not refused_here(octets, theirs, ours):
        return False
    unused, *bits = content(octets)
    return unused > 7 or unused > 0 and not bits


def padding_bits(mode, kind, octets, theirs, ours):
    if kind != "bits" or mode == "ber" or not refused_here(octets, theirs, ours):
        return False
    unused, *bits = content(octets)
    return unused < 8 and bits != [] and bits[-1] % 2**unused != 0


def identifier_ends(mode, kind, octets, theirs, ours):
    if kind != "oid" or not refused_here(octets, theirs, ours):
        return False
    return content(octets) == b"" or content(octets)[-1] >= 128


def large_components(mode, kind, octets, theirs, ours):
    if kind != "oid" or theirs == "refused" or ours == "refused":
        return False
    right = ours.rsplit(" ", 1)[0] == "ok " + ".".join(component_texts(content(octets)))
    return right and any(len(part) > 3 for part in subidentifiers(content(octets)))


def texts(mode, kind, octets, theirs, ours):
    return kind == "utf8" and refused_here(octets, theirs, ours) and not is_text(kind, joined(octets))


def empty_segments(mode, kind, octets, theirs, ours):
    if kind not in TEXTS or mode != "ber" or theirs != "panic" or not is_whole(octets):
        return False
    right = f"ok x{joined(octets).hex()}" if is_text(kind, joined(octets)) else "refused"
    return 0 in segment_sizes(octets) and ours.rsplit(" ", 1)[0] == right


def segments(mode, kind, octets, theirs, ours):
    if kind not in ("octets", *TEXTS) or mode != "cer" or not refused_here(octets, theirs, ours):
        return False
    sizes = segment_sizes(octets)
    right = len(sizes) > 1 and all(size == 1000 for size in sizes[:-1]) and 1 <= sizes[-1] <= 1000
    return octets[0] & 0x20 != 0 and not right


def refused_here(octets, theirs, ours):
    """Whether the value in front is whole, and refused here alone."""
    return ours == "refused" and theirs != "refused" and is_whole(octets)


CLASSES = {
    "the end of a source": (at_the_end, "skip_one answers None there, and doesn't refuse"),
    "panics": (panics, "where the octets end inside the value, it is refused"),
    "tag numbers to 30 in long form, or behind 80": (tag_forms, "refused (X.690 8.1.2.2, 8.1.2.4.2)"),
    "constructed end-of-contents": (constructed_ends, "refused: no value has its tag (X.690 8.1.5)"),
    "lengths of constructed values in CER and DER": (length_forms, "tested in skipped values too (X.690 9.1, 10.1)"),
    "counts of unused bits": (unused_counts, "0 to 7, and 0 where there is no bit (X.690 8.6.2)"),
    "padding bits": (padding_bits, "zeros in CER and DER (X.690 11.2.1)"),
    "identifiers without an end": (identifier_ends, "refused: bit 8 ends a subidentifier (X.690 8.19.2)"),
    "large components": (large_components, "printed where they are below 2^32, else told as not implemented"),
    "octets that are no UTF-8": (texts, "refused: overlong forms, surrogates, numbers above 10FFFF (RFC 3629 3, 4)"),
    "empty segments of texts": (empty_segments, "they panic; here a segment may be empty (X.690 8.7.3)"),
    "end-of-contents with a long length": (long_ends, "refused: it is two zero octets (X.690 8.1.5)"),
    "segments in CER": (segments, "of 1000 octets, and a last one of 1 to 1000 (X.690 9.2)"),
}


def class_of(question, theirs, ours):
    for name, (test, _) in CLASSES.items():
        if test(*question, theirs, ours):
            return name
    return None


def run(command, folder):
    """Runs a command that has to succeed."""
    done = subprocess.run(command, cwd=folder, capture_output=True, text=True)
    if done.returncode != 0:
        sys.exit(done.stdout + done.stderr)


def build_rust(folder, packages):
    """Builds the Rust program; its path."""
    registry = os.path.join(os.path.abspath(packages), "usr", "share", "cargo", "registry")
    found = {name.rsplit("-", 1)[0]: name for name in os.listdir(registry)}
    source = os.path.join(folder, "src")
    os.makedirs(source, exist_ok=True)
    pathlib.Path(folder, "Cargo.toml").write_text(CARGO.format(registry=registry, **found))
    shutil.copy(HERE / "bcder_answers.rs.in", os.path.join(source, "main.rs"))
    run(["cargo", "build", "--release", "--offline"], folder)
    return os.path.join(folder, "target", "release", "bcder_answers")


def words(question):
    mode, kind, octets = question
    return f"{mode} {kind} {octets.hex()}"


def line(program, question):
    """The question as a program is asked it."""
    if pathlib.Path(program).name == QUESTIONS:
        return "codec\tfront\t" + words(question).replace(" ", "\t") + "\n"
    return words(question) + "\n"


def answers(program, questions):
    """What a program answers to the questions."""
    text = "".join(line(program, question) for question in questions)
    told = subprocess.run([program], input=text, capture_output=True, text=True, check=True).stdout.splitlines()
    if len(told) != len(questions):
        sys.exit(f"{program}: {len(told)} answers to {len(questions)} questions")
    return told


def compare(programs, questions, counts):
    """Counts the answers by class, and prints those of none."""
    questions = list(questions)
    for question, theirs, ours in zip(questions, *(answers(program, questions) for program in programs)):
        if theirs == ours:
            counts["refused by both" if ours == "refused" else "read by both"] += 1
            continue
        name = class_of(question, theirs, ours)
        counts[name] += 1
        if name is None and counts[name] <= 50:
            print(f"{words(question)}: theirs {theirs}, ours {ours}")


def compare_all(programs):
    counts = collections.Counter()
    compare(programs, chance_questions(COUNT), counts)
    compare(programs, short_questions(), counts)
    for first in TAGS:
        compare(programs, three_questions(first), counts)
    compare(programs, utf8_questions(), counts)
    for name, count in counts.most_common():
        print(f"{count:>9,}  {name or 'without a reason'}")
    return counts[None]


def is_near(kind, octets):
    """Whether octets begin as a value of that kind does, of either form."""
    return octets != b"" and (kind in EXTENTS or octets[0] & 0xDF == FIRST[kind])


def record(programs):
    """Writes questions on which both agree: of each mode and kind as many that are read as that are refused, all of
    octets that begin as such a value."""
    rows = collections.defaultdict(list)
    questions = [question for question in chance_questions(COUNT) if is_near(*question[1:]) and len(question[2]) < 100]
    for question, theirs, ours in zip(questions, *(answers(program, questions) for program in programs)):
        if theirs == ours:
            rows[question[:2], ours != "refused"].append((question, theirs))
    kept = [row for of_kind in rows.values() for row in of_kind[:RECORDED]]
    RECORD.write_text("".join(f"{words(question)} = {answer}\n" for question, answer in kept))
    print(f"{len(kept)} questions recorded")


def main():
    given = [word for word in sys.argv[1:] if word != "--record"]
    if len(given) not in (1, 2):
        sys.exit("usage: bcder_answers.py [--record] BCDER [FOLDER]")
    with tempfile.TemporaryDirectory() as folder:
        programs = [build_rust(given[1] if len(given) == 2 else folder, given[0]), str(unproved(QUESTIONS))]
        if "--record" in sys.argv:
            record(programs)
        elif compare_all(programs) > 0:
            sys.exit(1)


if __name__ == "__main__":
    main()
