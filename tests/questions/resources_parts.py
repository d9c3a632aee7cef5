"""What the questions about resources are made of: numbers, addresses, blocks and their texts, sets of ranges, and values in DER."""

import ipaddress
import random

import asking

rng = random.Random(9582)
LAST = 2**32 - 1
V6_LAST = 2**128 - 1


class Questions(asking.Questions):
    """Questions about resources. An answer is a text, or a list of what its words stand for."""

    def __init__(self):
        super().__init__("resources")

    def ask(self, answer, *words):
        super().ask(answer if isinstance(answer, str) else " ".join(map(word, answer)), *words)

    def call(self, answer, *words):
        """Asks about a single call, behind the word `call`."""
        self.ask(answer, "call", *words)


def word(part):
    if isinstance(part, bool):
        return str(part).lower()
    return "-" if part is None else str(part)


def order(one, other):
    return "less" if one < other else "equal" if one == other else "greater"


def text_of(version, number):
    if version == 4:
        return str(ipaddress.IPv4Address(number))
    if number >> 32 == 0xFFFF:
        return f"::ffff:{ipaddress.IPv4Address(number & LAST)}"
    return str(ipaddress.IPv6Address(number))


def width(version):
    return 32 if version == 4 else 128


def parsed(text):
    address = ipaddress.ip_address(text)
    return address.version, int(address)


ADDRESSES = [
    "0.0.0.0", "255.255.255.255", "10.0.0.0", "192.0.2.1", "198.51.100.128", "203.0.113.255", "::", "::1", "2001:db8::",
    "2001:db8:0:1::", "2001:0:0:1::1", "1::2:0:0:3:0", "1:0:2:0:3:0:4:0", "fe80::1", "ff02::fb", "::ffff:192.0.2.1",
    "ffff:ffff:ffff:ffff:ffff:ffff:ffff:ffff", "64:ff9b::", "::fffe:192.0.2.1", "1:2:3:4:5:6:7:8", "0:1:2:3:4:5:6:7", "1:2:3:4:5:6:7:0",
]


def some_addresses(count):
    texts = list(ADDRESSES)
    for _ in range(count):
        version = rng.choice([4, 6])
        texts.append(text_of(version, rng.getrandbits(width(version)) & rng.getrandbits(width(version))))
    return texts


def asn(number):
    return f"AS{number}"


def spelled_asn(number):
    return rng.choice(["AS", "as", "aS", "As", "", "AS00"]) + str(number)


def as_text(run):
    first, last = run
    return asn(first) if first == last else f"AS{first}-AS{last}"


def spelled_as(run):
    first, last = run
    return rng.choice([f"AS{first}-AS{last}", as_text(run)])


def overlaps(one, other):
    return one[0] <= other[1] and other[0] <= one[1]


def is_in(one, other):
    return other[0] <= one[0] and one[1] <= other[1]


def total(one, other):
    """The run of both, where they overlap or touch."""
    return (min(one[0], other[0]), max(one[1], other[1])) if one[0] <= other[1] + 1 and other[0] <= one[1] + 1 else None


def some_runs(last):
    runs = [(0, last), (0, 0), (last, last), (0, 5), (last - 9, last), (4, 7), (7, 9), (10, 10), (8, 8), (3, 3), (last - 9, last - 8)]
    return runs + [tuple(sorted(rng.randrange(30) for _ in range(2))) for _ in range(9)]


def neighbours(run, last):
    return [run[0] - 1 if run[0] else None, run[1] + 1 if run[1] < last else None]


def some_set(most, top=40):
    return [tuple(sorted(rng.randrange(top) for _ in range(2))) for _ in range(rng.randrange(most + 1))]


def listed(runs):
    return ",".join(map(as_text, runs))


def printed(runs):
    return [*map(as_text, runs), ";"]


def as_bits(version, number):
    return number << 96 if version == 4 else number


def both_texts(value):
    return text_of(4, value >> 96), text_of(6, value)


def length_of(first, last):
    """The length of the prefix that the addresses are, or None."""
    size = last - first + 1
    return 128 - size.bit_length() + 1 if size & (size - 1) == 0 and first % size == 0 else None


def block_texts(first, last):
    """A block as IPv4 and as IPv6."""
    length = length_of(first, last)
    if length is not None:
        return [f"{text}/{length}" for text in both_texts(first)]
    return [f"{a}-{b}" for a, b in zip(both_texts(first), both_texts(last))]


def read_block(text):
    """The version, the first and the last address of a text that is one."""
    if "/" in text:
        network = ipaddress.ip_network(text.replace("/+", "/"), strict=False)
        version, first, last = network.version, int(network.network_address), int(network.broadcast_address)
    else:
        (version, first), (_, last) = map(parsed, text.split("-"))
    return version, as_bits(version, first), as_bits(version, last) | (2**96 - 1 if version == 4 else 0)


BLOCKS = [
    "58.38.3.95/0", "213.135.31.98/1", "163.243.106.1/9", "156.17.47.40/24", "121.199.57.172/31", "93.148.103.129/32",
    "78.47.172.224-78.47.172.225", "194.52.49.81-194.52.49.94", "201.172.249.47-201.172.250.205", "0.0.0.0-255.255.255.255",
    "0.0.0.1-255.255.255.254", "255.255.255.255-255.255.255.255", "0.0.0.0/32", "90cb:a21e:a51a:767e:950d:bec9:70e9:3ece/0",
    "fbb7:b243:2fb:e9c5:e5ef:e973:8fd4:7740/1", "7e7e:9fa4:825c:a2b3:6b1c:1505:95fd:4bd6/9", "615a:484c::/32",
    "66e7:a2f4:cf72:166b:2432:8273:8d4d:5de4/127", "91ae:1752::343/128", "::-ffff:ffff:ffff:ffff:ffff:ffff:ffff:ffff",
    "::1-ffff:ffff:ffff:ffff:ffff:ffff:ffff:fffe", "ffff:ffff:ffff:ffff:ffff:ffff:ffff:ffff/128", "::ffff:192.0.2.0/120",
    "::ffff:192.0.2.1-::ffff:192.0.2.9", "2001:db8::4-2001:db8::7", "a00::/8", "2001:db8::-2001:db9:ffff:ffff:ffff:ffff:ffff:ffff",
]


def some_blocks(count):
    texts = list(BLOCKS)
    for _ in range(count):
        version = rng.choice([4, 6])
        base = rng.getrandbits(width(version) - 6) << 5
        first, last = sorted(base + rng.randrange(24) for _ in range(2))
        texts.append(f"{text_of(version, first)}-{text_of(version, last)}")
    return texts


def shown_set(runs):
    return ["=", ", ".join(block_texts(*run)[1] for run in runs)]


# Sets of ranges.


def maximal(ranges):
    """Maximal runs, ascending."""
    runs = []
    for first, last in sorted(ranges):
        if runs and first <= runs[-1][1] + 1:
            runs[-1] = (runs[-1][0], max(runs[-1][1], last))
        else:
            runs.append((first, last))
    return runs


def inside(runs, ends):
    """Each range between two neighbouring ends is in the runs or out of them."""
    return {(a, b) for a, b in zip(ends, ends[1:]) if any(f <= a and b - 1 <= l for f, l in runs)}


def cut(one, other):
    ends = sorted({e for f, l in one + other for e in (f, l + 1)})
    return inside(one, ends), inside(other, ends)


def joined(parts):
    return maximal([(a, b - 1) for a, b in parts])


def union(one, other):
    return maximal(one + other)


def intersection(one, other):
    a, b = cut(one, other)
    return joined(a & b)


def difference(one, other):
    a, b = cut(one, other)
    return joined(a - b)


# Values in DER.


def tlv(tag, content):
    size = len(content)
    octets = size.to_bytes((size.bit_length() + 7) // 8, "big")
    return bytes([tag, size] if size < 128 else [tag, 128 + len(octets), *octets]) + content


def integer(n):
    return tlv(2, n.to_bytes(n.bit_length() // 8 + 1, "big", signed=True))


def as_block(first, last):
    return integer(first) if first == last else tlv(0x30, integer(first) + integer(last))


def bits(value, count):
    """A BIT STRING of the first `count` of all bits of `value`, in DER."""
    size = (count + 7) // 8
    return tlv(3, bytes([8 * size - count]) + (value << (8 * size - count)).to_bytes(size, "big"))


def shortest(width, address, end):
    """How many bits are left of an address of so many where those at its end, zeros or ones, are cut."""
    count = width
    while count and address >> (width - count) & 1 == end:
        count -= 1
    return count


def ip_family(version, content):
    return tlv(0x30, tlv(4, bytes([0, 1 if version == 4 else 2])) + content)
