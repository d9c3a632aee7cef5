#!/usr/bin/env python3
"""Makes bundles of version 0, in DER, with so many entries in each list.

As a module it gives the pieces of a bundle (`locator`, `object_at`, `verdict`, `bundle`) and writes large
bundles entry by entry (`write_bundle`). As a command it writes one bundle:

    make_bundle.py --locators 2 --objects 1 --object-size 64 --verdicts 1 -o FILE

All locators have empty texts, so that each is refused; `--lines FILE` writes what the program must print.
"""

import argparse
import hashlib
import sys

INTEGER = 0x02
OCTET_STRING = 0x04
PRINTABLE_STRING = 0x13
IA5_STRING = 0x16
GENERALIZED_TIME = 0x18
SEQUENCE = 0x30

MOMENT = b"20250101000000Z"
DEPTH = 32


def der_length(length):
    """The shortest length octets of a content with that many octets."""
    if length < 128:
        return bytes([length])
    octets = length.to_bytes((length.bit_length() + 7) // 8, "big")
    return bytes([0x80 | len(octets)]) + octets


def value(identifier, content):
    """The DER value with that identifier octet and content."""
    return bytes([identifier]) + der_length(len(content)) + content


def sequence(*members):
    """The SEQUENCE of these values."""
    return value(SEQUENCE, b"".join(members))


def locator(name, text=b""):
    """A locator: its name and its text."""
    return sequence(value(PRINTABLE_STRING, name), value(OCTET_STRING, text))


def object_at(uri, octets):
    """An object: where it is published, and its octets."""
    return sequence(value(IA5_STRING, uri), value(OCTET_STRING, octets))


def verdict(key, message, signature):
    """A good signature: the three digests, of 32 octets each."""
    return sequence(*(value(OCTET_STRING, digest) for digest in (key, message, signature)))


def head(moment=MOMENT, depth=DEPTH):
    """What stands before the lists: version 0, the moment and the depth."""
    return value(INTEGER, b"\0") + value(GENERALIZED_TIME, moment) + value(INTEGER, bytes([depth]))


def bundle(locators=(), objects=(), verdicts=(), moment=MOMENT, depth=DEPTH):
    """The bundle with these entries, which are taken in the order given."""
    lists = (sequence(*entries) for entries in (locators, objects, verdicts))
    return sequence(head(moment, depth), *lists)


def name_at(number):
    """The name of a made locator; names ascend with the number."""
    return b"locator%07d" % number


def uri_at(number):
    """The URI of a made object; URIs ascend with the number."""
    return b"rsync://r.example/m/%07d.roa" % number


def octets_at(number, size):
    """The octets of a made object: they differ from object to object, and mean nothing."""
    digest = hashlib.sha256(b"%d" % number).digest()
    return (digest * (size // len(digest) + 1))[:size]


def made_locators(count):
    """So many locators with empty texts, ascending."""
    return (locator(name_at(number)) for number in range(count))


def made_objects(count, size):
    """So many objects of that size, ascending."""
    return (object_at(uri_at(number), octets_at(number, size)) for number in range(count))


def made_verdict(number):
    """A verdict of digests that ascend with the number."""
    key = number.to_bytes(32, "big")
    message = hashlib.sha256(key).digest()
    return verdict(key, message, hashlib.sha256(message).digest())


def made_verdicts(count):
    """So many verdicts, ascending."""
    return (made_verdict(number) for number in range(count))


def made_lines(count):
    """What the program prints of a bundle with that many made locators."""
    return (b"refused " + name_at(number) + b" tal\n" for number in range(count))


def write_bundle(file, locators=0, objects=0, object_size=0, verdicts=0):
    """Writes the bundle with so many made entries, one by one: its size is known before its first octet."""
    makers = (
        lambda: made_locators(locators),
        lambda: made_objects(objects, object_size),
        lambda: made_verdicts(verdicts),
    )
    front = head()
    sizes = [sum(map(len, maker())) for maker in makers]
    headers = [bytes([SEQUENCE]) + der_length(size) for size in sizes]
    file.write(bytes([SEQUENCE]) + der_length(len(front) + sum(sizes) + sum(map(len, headers))) + front)
    for header, maker in zip(headers, makers):
        file.write(header)
        for entry in maker():
            file.write(entry)


def arguments():
    """The command's options."""
    parser = argparse.ArgumentParser(description="Writes one bundle of version 0.")
    parser.add_argument("--locators", type=int, default=0, help="how many locators, with empty texts")
    parser.add_argument("--objects", type=int, default=0, help="how many objects")
    parser.add_argument("--object-size", type=int, default=2048, help="octets of each object (2048)")
    parser.add_argument("--verdicts", type=int, default=0, help="how many verdicts")
    parser.add_argument("-o", "--output", help="the file to write (standard output)")
    parser.add_argument("--lines", help="a file for what the program must print of the bundle")
    return parser.parse_args()


def main():
    options = arguments()
    counts = (options.locators, options.objects, options.object_size, options.verdicts)
    if options.output is None:
        write_bundle(sys.stdout.buffer, *counts)
    else:
        with open(options.output, "wb") as file:
            write_bundle(file, *counts)
    if options.lines is not None:
        with open(options.lines, "wb") as file:
            file.writelines(made_lines(options.locators))


if __name__ == "__main__":
    main()
