"""Questions about sets of AS numbers and addresses: texts, what two sets come to, claims, paths and encodings.

The answers come from Python's own integers, sets of ranges and `ipaddress`, and from the worked case `resource-cases`.
"""

import ipaddress
import random

from resources_parts import as_block, bits, difference, integer, intersection, ip_family, maximal, shortest, tlv, union

rng = random.Random(3779)


class Kind:
    """AS numbers or addresses of one family, and their texts."""

    def shown(self, runs):
        return ", ".join(self.block(*run) for run in runs)

    def spelled(self, ranges):
        """A text of the ranges, by one of the texts of each."""
        return rng.choice([", ", ","]).join(self.spelling(*one) for one in ranges)


class Numbers(Kind):
    word, bits, what = "as", 32, "AS"

    def block(self, first, last):
        return f"AS{first}" if first == last else f"AS{first}-AS{last}"

    def spelling(self, first, last):
        prefix = lambda: rng.choice(["AS", "as", "As", ""])
        if first == last and rng.random() < 0.8:
            return f"{prefix()}{first}"
        return f"{prefix()}{first}-{prefix()}{last}"


class Addresses(Kind):
    def __init__(self, version):
        self.word = f"v{version}"
        self.what = f"IPv{version}"
        self.address = (None, None, None, None, ipaddress.IPv4Address, None, ipaddress.IPv6Address)[version]
        self.network = ipaddress.IPv4Network if version == 4 else ipaddress.IPv6Network
        self.bits = 32 if version == 4 else 128

    def prefixes(self, first, last):
        return list(ipaddress.summarize_address_range(self.address(first), self.address(last)))

    def block(self, first, last):
        prefixes = self.prefixes(first, last)
        return str(prefixes[0]) if len(prefixes) == 1 else f"{self.address(first)}-{self.address(last)}"

    def spelling(self, first, last):
        if rng.random() < 0.5:
            return f"{self.address(first)}-{self.address(last)}"
        return self.block(first, last)


def ranges(kind, most):
    """Ranges that overlap and touch, near one place or at the ends of all numbers."""
    top = 2 ** kind.bits - 1
    base = rng.choice([0, top - 99, 0x0A00_0000 << (kind.bits - 32), rng.randrange(top - 100)])
    made = []
    for _ in range(rng.randrange(most + 1)):
        first = base + rng.randrange(90)
        made.append((first, min(top, first + rng.choice([0, 0, 1, 3, 7, 9]))))
    return made


def sets(q, kind, reads, pairs):
    for _ in range(reads):
        r = ranges(kind, 6)
        q.ask(kind.shown(maximal(r)), kind.word, "read", kind.spelled(r))
    for _ in range(pairs):
        r = ranges(kind, 6)
        s = [(f + rng.randrange(3), l + 3) for f, l in r if l + 3 < 2 ** kind.bits] + ranges(kind, 3)
        one, other = maximal(r), maximal(s)
        two = kind.spelled(r), kind.spelled(s)
        q.ask(kind.shown(union(one, other)), kind.word, "union", *two)
        q.ask(kind.shown(intersection(one, other)), kind.word, "intersection", *two)
        q.ask(kind.shown(difference(one, other)), kind.word, "difference", *two)
        q.ask("true" if difference(one, other) == [] else "false", kind.word, "within", *two)
        q.ask("true", kind.word, "within", kind.spelled(intersection(one, other)), two[0])
        claims(q, kind, one, other, two)


def outside(kind, runs):
    return f"refused: overclaimed {kind.what} resources: {kind.shown(runs)}"


def claims(q, kind, one, other, two):
    held, over = intersection(other, one), difference(other, one)
    q.ask(kind.shown(held), kind.word, "trim", *two)
    q.ask(outside(kind, over) if over else kind.shown(held), kind.word, "refuse", *two)
    q.ask(outside(kind, over) if over else kind.shown(one), kind.word, "covered", *two)


def paths(q, kind, count):
    for _ in range(count):
        root = maximal(ranges(kind, 6)) or [(5, 9)]
        held, words, answer = root, [], None
        for _ in range(rng.randrange(5)):
            policy = rng.choice(["trim", "refuse"])
            listed = [(f + rng.randrange(2), l) for f, l in held if f < l] + rng.choice([[], [], ranges(kind, 1)])
            if rng.random() < 0.3:
                words += [policy, "inherit"]
                continue
            words += [policy, kind.spelled(listed)]
            if answer is None and policy == "refuse" and difference(maximal(listed), held):
                answer = outside(kind, difference(maximal(listed), held))
            held = intersection(maximal(listed), held)
            if kind.word == "as" and listed == []:
                held = []
        q.ask(kind.shown(held) if answer is None else answer, kind.word, "path", kind.spelled(root), *words)


def numbers(q):
    kind = Numbers()
    for _ in range(60):
        r = maximal(ranges(kind, 5))
        each = [n for f, l in r for n in range(f, l + 1)]
        q.ask(str(len(each)), kind.word, "count", kind.spelled(r))
        q.ask("".join(f"AS{n};" for n in each[:12]), kind.word, "each", kind.spelled(r))
    q.ask("4294967296", "as", "count", "AS0-AS4294967295")
    q.ask("AS4294967294;AS4294967295;", "as", "each", "AS4294967294-AS4294967295")
    q.ask("refused: inherited AS resources", "as", "resources", "inherit")
    q.ask(": ", "as", "resources", "")
    q.ask("AS1-AS2, AS9: AS1-AS2, AS9", "as", "resources", "AS9,AS1,AS2")
    q.ask("AS0-AS1", "as", "union", "AS0", "AS1")
    for bad in (",", "AS1,", ", AS1", "AS1, , AS2"):
        q.ask("refused: invalid list of AS blocks", "as", "read", bad)
    for bad in ("AS1,  AS2", " AS1", "AS1 ,AS2", "inherit", "AS1-", "-AS1", "AS1 - AS2", "x", "AS4294967296", "AS"):
        q.ask("refused: invalid AS number", "as", "read", bad)
    for bad in ("AS1, AS9-AS2", "AS5-AS1", "AS1-AS2-AS3"):
        q.ask("refused: invalid AS range", "as", "read", bad)
    q.ask("refused: invalid AS number", "as", "resources", "Inherit")
    q.ask("refused: overclaimed AS resources: AS64512", "as", "refuse", "AS64496-AS64511", "AS64500, AS64512")
    q.ask("AS64500", "as", "trim", "AS64496-AS64511", "AS64500, AS64512")


def as_resources(content):
    return tlv(0x30, tlv(0xA0, content))


def encodings(q):
    kind = Numbers()
    for _ in range(100):
        r = ranges(kind, 6)
        octets = as_resources(tlv(0x30, b"".join(as_block(*block) for block in r)))
        q.ask(kind.shown(maximal(r)) + ".", "as", "decode", octets.hex())
    # `resource-cases`: refused, inherited, and the empty set that is listed.
    q.ask("refused: no AS resources", "as", "decode", "3000")
    q.ask("inherit.", "as", "decode", "3004a0020500")
    q.ask(".", "as", "decode", "3004a0023000")
    q.ask("AS5.", "as", "decode", (as_resources(tlv(0x30, as_block(5, 5))) + b"behind").hex())
    one = tlv(0x30, integer(7))
    for octets in (
        b"",
        tlv(0x30, tlv(0xA0, b"")),
        tlv(0x31, tlv(0xA0, one)),
        tlv(0x30, tlv(0xA1, one)),
        tlv(0x30, tlv(0xA0, one) + tlv(0xA1, one)),
        tlv(0x30, one),
        as_resources(one + one),
        as_resources(tlv(5, b"0")),
        as_resources(tlv(0x30, tlv(0x30, integer(9) + integer(8)))),
        as_resources(tlv(0x30, tlv(0x30, integer(8)))),
        as_resources(tlv(0x30, tlv(0x30, integer(8) + integer(9) + integer(10)))),
        as_resources(tlv(0x30, integer(2 ** 32))),
        as_resources(tlv(0x30, tlv(0x30, integer(1) + integer(2 ** 32)))),
        as_resources(tlv(0x30, integer(-1))),
        as_resources(tlv(0x30, tlv(2, b"\0\5"))),
        as_resources(tlv(0x30, tlv(4, b"5"))),
        as_resources(tlv(0x30, integer(7) + tlv(5, b""))),
        bytes.fromhex("3080a080308002010500000000000000"[:-2]),
        as_resources(tlv(0x30, integer(7)))[:-1],
    ):
        q.ask("refused: no AS resources", "as", "decode", octets.hex())
    q.ask("AS4294967295.", "as", "decode", as_resources(tlv(0x30, integer(2 ** 32 - 1))).hex())
    # A refused read leaves its content failed; where no block is next, nothing is read.
    for octets in (integer(5), tlv(0x30, integer(8) + integer(9)), b"", tlv(5, b"")):
        q.ask("goes on", "as", "forgotten", octets.hex())
    for octets in (
        tlv(0x30, integer(9) + integer(8)),
        tlv(0x30, integer(8)),
        tlv(0x30, integer(8) + integer(9) + integer(10)),
        integer(2 ** 32),
        integer(-1),
        integer(5)[:1],
    ):
        q.ask("refused: the content failed", "as", "forgotten", octets.hex())


def end_of_range(kind, address, end):
    count = rng.randrange(shortest(kind.bits, address, end), kind.bits + 1)
    return bits(address >> (kind.bits - count), count)


def ip_block(kind, first, last):
    prefixes = kind.prefixes(first, last)
    if len(prefixes) == 1 and rng.random() < 0.7:
        count = prefixes[0].prefixlen
        return bits(first >> (kind.bits - count), count)
    return tlv(0x30, end_of_range(kind, first, 0) + end_of_range(kind, last, 1))


def ip_blocks(kind, listed):
    return tlv(0x30, b"".join(ip_block(kind, *block) for block in listed))


NULL = tlv(5, b"")
NO_IP = "refused: no IP resources"


def families(q):
    kinds = {4: Addresses(4), 6: Addresses(6)}
    for _ in range(250):
        said = {4: "missing", 6: "missing"}
        octets = b""
        for version in rng.choice([(4,), (6,), (4, 6), (6, 4)]):
            kind = kinds[version]
            listed = rng.choice([None, ranges(kind, 6), ranges(kind, 6), [wide(kind)]])
            octets += ip_family(version, NULL if listed is None else ip_blocks(kind, listed))
            said[version] = "inherit" if listed is None else f"[{kind.shown(maximal(listed))}]"
        octets = tlv(0x30, octets)
        q.ask(f"{said[4]} {said[6]}", "ip", "decode", octets.hex())
        q.ask(f"{said[4]} {said[6]}", "ip", "decode", (octets + b"behind").hex())
        q.ask(NO_IP, "ip", "decode", octets[:-1].hex())
    # `resource-cases`: IPv4 inherited and IPv6 missing; no families at all.
    q.ask("inherit missing", "ip", "decode", "30083006040200010500")
    q.ask(NO_IP, "ip", "decode", "3000")
    refused_families(q, kinds)
    in_other_modes(q)
    written_blocks(q, kinds)
    family_alone(q)


def written_block(kind, first, last):
    """A prefix where it is one, and else the shortest bit strings of both ends."""
    prefixes = kind.prefixes(first, last)
    if len(prefixes) == 1:
        count = prefixes[0].prefixlen
        return bits(first >> (kind.bits - count), count)
    low, high = shortest(kind.bits, first, 0), shortest(kind.bits, last, 1)
    return tlv(0x30, bits(first >> (kind.bits - low), low) + bits(last >> (kind.bits - high), high))


def written_blocks(q, kinds):
    for version, kind in kinds.items():
        family = tlv(4, bytes([0, 1 if version == 4 else 2]))
        listed = [ranges(kind, 4) or [(5, 9)] for _ in range(40)] + [[wide(kind)] for _ in range(60)]
        for one in listed + [[(0, 2 ** kind.bits - 1)], [(1, 2 ** kind.bits - 1)], [(0, 2 ** kind.bits - 2)], [(0, 0)]]:
            octets = b"".join(written_block(kind, *block) for block in maximal(one))
            q.ask((family + octets).hex(), "ip", "encode", kind.spelled(one))


def family_alone(q):
    q.ask("Some(()) Some(Ipv6)", "ip", "family", "0402000104020002")
    q.ask("Some(()) Some(Ipv4)", "ip", "family", "0402000204020001")
    q.ask("Some(()) None", "ip", "family", "040200010500")
    q.ask("Some(()) None", "ip", "family", "04020002")
    q.ask("None None", "ip", "family", "0500")
    for octets in ("0402000104020003", "04020100", "040100", "0403000101", "0402000104"):
        q.ask("refused: no family", "ip", "family", octets)


def wide(kind):
    """A range between any two addresses."""
    return tuple(sorted(rng.randrange(2 ** rng.randrange(1, kind.bits + 1)) for _ in range(2)))


def refused_families(q, kinds):
    v4 = lambda content: tlv(0x30, ip_family(4, content))
    v6 = lambda content: tlv(0x30, ip_family(6, content))
    ten = bits(10, 8)
    q.ask("[] missing", "ip", "decode", v4(tlv(0x30, b"")).hex())
    q.ask("[0.0.0.0/0] missing", "ip", "decode", v4(tlv(0x30, bits(0, 0))).hex())
    q.ask("missing [::/0]", "ip", "decode", v6(tlv(0x30, tlv(0x30, bits(0, 0) + bits(0, 0)))).hex())
    q.ask("[10.0.0.0/8] missing", "ip", "decode", v4(tlv(0x30, ten)).hex())
    q.ask("[10.0.0.0-12.255.255.255] missing", "ip", "decode", v4(tlv(0x30, tlv(0x30, bits(5, 7) + bits(12, 8)))).hex())
    q.ask("[10.0.0.1/32] missing", "ip", "decode", v4(tlv(0x30, bits(0x0A000001, 32))).hex())
    q.ask("missing [::1/128]", "ip", "decode", v6(tlv(0x30, bits(1, 128))).hex())
    q.ask("missing [a00::/33]", "ip", "decode", v6(tlv(0x30, bits(0x0A00000000000000 >> 31, 33))).hex())
    for octets in (
        b"",
        tlv(0x31, ip_family(4, NULL)),
        tlv(0x30, ip_family(4, NULL) + ip_family(4, NULL)),
        tlv(0x30, ip_family(6, NULL) + ip_family(6, tlv(0x30, b""))),
        tlv(0x30, ip_family(4, NULL) + ip_family(6, NULL) + ip_family(4, NULL)),
        tlv(0x30, ip_family(4, NULL) + NULL),
        tlv(0x30, NULL + ip_family(4, NULL)),
        tlv(0x30, tlv(0x30, tlv(4, b"\0\1"))),
        tlv(0x30, tlv(0x30, NULL + tlv(4, b"\0\1"))),
        tlv(0x30, tlv(0x30, tlv(4, b"\0\1") + NULL + NULL)),
        tlv(0x30, tlv(0x30, tlv(4, b"\0\3") + NULL)),
        tlv(0x30, tlv(0x30, tlv(4, b"\0\0") + NULL)),
        tlv(0x30, tlv(0x30, tlv(4, b"\1\0") + NULL)),
        tlv(0x30, tlv(0x30, tlv(4, b"\1") + NULL)),
        tlv(0x30, tlv(0x30, tlv(4, b"") + NULL)),
        tlv(0x30, tlv(0x30, tlv(4, b"\0\1\1") + NULL)),
        tlv(0x30, tlv(0x30, tlv(3, b"\0\0\1") + NULL)),
        v4(tlv(5, b"0")),
        v4(tlv(4, b"0")),
        v4(ten),
        v4(tlv(0x30, NULL)),
        v4(tlv(0x30, ten + NULL)),
        v4(tlv(0x30, tlv(0x30, NULL))),
        # More bits than an address has.
        v4(tlv(0x30, bits(5, 33))),
        v4(tlv(0x30, bits(5, 40))),
        v4(tlv(0x30, bits(5, 128))),
        v6(tlv(0x30, bits(5, 129))),
        v6(tlv(0x30, bits(5, 8 * 17))),
        v6(tlv(0x30, bits(5, 8 * 300))),
        v4(tlv(0x30, tlv(0x30, ten + bits(5, 33)))),
        v4(tlv(0x30, tlv(0x30, bits(5, 33) + ten))),
        # Set padding bits, more than 7, some of nothing, no count at all.
        v4(tlv(0x30, tlv(3, b"\1\x0B"))),
        v4(tlv(0x30, tlv(3, b"\7\xFF"))),
        v4(tlv(0x30, tlv(3, b"\x08\x0A\0"))),
        v4(tlv(0x30, tlv(3, b"\1"))),
        v4(tlv(0x30, tlv(3, b""))),
        v4(tlv(0x30, tlv(0x23, ten))),
        # Ranges: the last before the first, one end, three.
        v4(tlv(0x30, tlv(0x30, bits(11, 8) + bits(10, 8)))),
        v4(tlv(0x30, tlv(0x30, bits(0x0A000001, 32) + bits(0x0A000000, 32)))),
        v6(tlv(0x30, tlv(0x30, bits(1, 1) + bits(0, 1)))),
        v4(tlv(0x30, tlv(0x30, ten))),
        v4(tlv(0x30, tlv(0x30, ten + ten + ten))),
        v4(tlv(0x30, tlv(0x30, b""))),
    ):
        q.ask(NO_IP, "ip", "decode", octets.hex())


def in_other_modes(q):
    """Set padding, indefinite lengths and strings in segments are for BER; CER has indefinite lengths alone."""
    padded = "30 0D 30 0B 04 02 00 01 30 05 03 03 04 0A 1F"
    q.ask("[10.16.0.0/12] missing", "ip", "decode", bytes.fromhex(padded).hex(), "ber")
    q.ask(NO_IP, "ip", "decode", bytes.fromhex(padded).hex())
    segments = "30 0C 30 0A 24 06 04 01 00 04 01 02 05 00"
    q.ask("missing inherit", "ip", "decode", bytes.fromhex(segments).hex(), "ber")
    q.ask(NO_IP, "ip", "decode", bytes.fromhex(segments).hex())
    indefinite = "30 80 30 80 04 02 00 01 30 80 03 02 00 0A 00 00 00 00 00 00"
    for mode in ("ber", "cer"):
        q.ask("[10.0.0.0/8] missing", "ip", "decode", bytes.fromhex(indefinite).hex(), mode)
    q.ask(NO_IP, "ip", "decode", bytes.fromhex(indefinite).hex())
    q.ask(NO_IP, "ip", "decode", "30083006040200010500", "cer")


def addresses(q):
    for version in (4, 6):
        kind = Addresses(version)
        for _ in range(60):
            for first, last in maximal(ranges(kind, 2)):
                each = "".join(f"{p};" for p in kind.prefixes(first, last))
                q.ask(each, kind.word, "each", f"{kind.address(first)}-{kind.address(last)}")
        q.ask("refused: inherited IP resources", kind.word, "resources", "inherit")
        q.ask("", kind.word, "resources", "none")
        q.ask("", kind.word, "resources", "")
    q.ask("10.0.0.0/9", "v4", "path", "10.0.0.0/8", "trim", "10.0.0.0/9, 11.0.0.0/8", "refuse", "inherit")
    q.ask("::ffff:192.0.2.1/128", "v6", "read", "::ffff:192.0.2.1/128")
    q.ask("::ffff:192.0.2.1-::ffff:192.0.2.2", "v6", "read", "::ffff:c000:202/128, ::ffff:c000:201/128")
    q.ask("true", "v4", "count", "10.0.0.0/8, 12.0.0.1-12.0.0.9")
    q.ask("true", "v6", "count", "a00::/8")
    q.ask("false", "v6", "count", "2001:db8::/32, 2001:db9::/33")
    q.ask("0.0.0.0/0", "v4", "union", "0.0.0.0/1", "128.0.0.0/1")
    q.ask("::/0", "v6", "union", "::/1", "8000::/1")
    refused_lists(q)


def refused_lists(q):
    for bad in (",", "10.0.0.0/8,", "10.0.0.0/8, ", ",10.0.0.0/8", "10.0.0.0/8,,11.0.0.0/8"):
        q.ask("refused: invalid list of blocks", "v4", "read", bad)
    for bad in (" 10.0.0.0/8", "10.0.0.0/8,  11.0.0.0/8", "10.0.0/8", "10.0.0.0-"):
        q.ask("refused: invalid address", "v4", "read", bad)
    q.ask("refused: invalid prefix length", "v4", "read", "10.0.0.0/8 , 11.0.0.0/8")
    q.ask("refused: addresses of different families", "v4", "read", "10.0.0.0/8, 2001:db8::/32")
    q.ask("refused: addresses of different families", "v4", "read", "2001:db8::/32")
    q.ask("refused: addresses of different families", "v6", "read", "2001:db8::/32, 10.0.0.0/8")
    q.ask("refused: addresses of different families", "v6", "read", "10.0.0.0/8")
    q.ask("refused: invalid range", "v4", "read", "11.0.0.0/8, 10.0.0.9-10.0.0.0")
    q.ask("refused: missing separator", "v6", "read", "2001:db8::")


def written(q):
    """AS resources and bare blocks in DER, from sets in any form."""
    kind = Numbers()
    for r in [ranges(kind, 6) for _ in range(80)] + [[], [(0, 2 ** 32 - 1)], [(127, 127), (129, 255)], [(32767, 32768)]]:
        bare = b"".join(as_block(*block) for block in maximal(r))
        text = kind.spelled(r)
        q.ask(f"{as_resources(tlv(0x30, bare)).hex()} {bare.hex()}" if r else " ", "as", "encode", text)
    q.ask("3004a0020500", "as", "encode", "inherit")


def written_families(q):
    """Both families of IP resources as one value, from sets in any form: IPv4 first, and none that is missing."""
    kinds = {4: Addresses(4), 6: Addresses(6)}
    for _ in range(120):
        words, octets = [], b""
        for version, kind in kinds.items():
            listed = rng.choice(["missing", "inherit", ranges(kind, 4), [wide(kind)]])
            words.append(listed if isinstance(listed, str) else kind.spelled(listed))
            if listed == "inherit":
                octets += ip_family(version, NULL)
            elif listed != "missing":
                blocks = b"".join(written_block(kind, *block) for block in maximal(listed))
                octets += ip_family(version, tlv(0x30, blocks))
        q.ask(tlv(0x30, octets).hex() if octets else "", "ip", "encode", *words)
    q.ask("", "ip", "encode", "missing", "missing")
    q.ask("30083006040200010500", "ip", "encode", "inherit", "missing", "ber")
    inherit_in_cer = "30 80 30 80 04 02 00 01 05 00 00 00 00 00"
    q.ask(bytes.fromhex(inherit_in_cer).hex(), "ip", "encode", "inherit", "missing", "cer")
    none_in_cer = "30 80 30 80 04 02 00 02 30 80 00 00 00 00 00 00"
    q.ask(bytes.fromhex(none_in_cer).hex(), "ip", "encode", "missing", "", "cer")


THREE = (Numbers(), Addresses(4), Addresses(6))


def print_set(three):
    return "asn: '{}', ipv4: '{}', ipv6: '{}'".format(*(kind.shown(runs) for kind, runs in zip(THREE, three)))


def print_changes(added, removed):
    def kinds(name, three):
        parts = [f" {word}: {kind.shown(runs)}" for word, kind, runs in zip(("asn", "ipv4", "ipv6"), THREE, three) if runs]
        return name + "".join(parts) if parts else ""

    parts = [part for part in (kinds("Added:", added), kinds("Removed:", removed)) if part]
    return " ".join(parts) or "<no changes in resources>"


def of_all(q):
    for _ in range(60):
        r = [rng.choice([[], ranges(kind, 4), ranges(kind, 4)]) for kind in THREE]
        s = [rng.choice([[], list(a), a + ranges(kind, 2), [(f, l) for f, l in a if rng.random() < 0.5]]) for kind, a in zip(THREE, r)]
        one, other = [maximal(a) for a in r], [maximal(a) for a in s]
        words = [kind.spelled(a) for kind, a in zip(THREE, r)]
        two = words + [kind.spelled(a) for kind, a in zip(THREE, s)]
        each = lambda f, a, b: [f(x, y) for x, y in zip(a, b)]
        added, removed = each(difference, one, other), each(difference, other, one)
        q.ask(print_set(one), "all", "read", *words)
        q.ask(print_set(one), "all", "resources", *(word or "none" if i else word for i, word in enumerate(words)))
        is_none = "true" if one == [[], [], []] else "false"
        q.ask(is_none, "all", "count", *words)
        q.ask(f"{print_set(one)}; true; {is_none}; {THREE[0].shown(one[0])}", "all", "each", *words)
        q.ask(print_set(each(union, one, other)), "all", "union", *two)
        q.ask(print_set(each(intersection, one, other)), "all", "intersection", *two)
        q.ask("true" if added == [[], [], []] else "false", "all", "within", *two)
        changes = f"{print_changes(added, removed)}; {print_set(added)}; {print_set(removed)}"
        q.ask(changes, "all", "difference", *two)
    for i in range(3):
        words = ["AS1", "10.0.0.0/8", "::/0"]
        words[i] = "inherit"
        q.ask("refused: cannot determine resources: some are inherited", "all", "resources", *words)
    q.ask("refused: cannot parse ASN resources: invalid AS number", "all", "read", "x", "y", "z")
    q.ask("1.3.6.1.5.5.7.14.2 1.3.6.1.5.5.7.1.7 1.3.6.1.5.5.7.1.8 true", "refuse", "identifiers")
    q.ask("1.3.6.1.5.5.7.14.3 1.3.6.1.5.5.7.1.28 1.3.6.1.5.5.7.1.29 true", "trim", "identifiers")


def ask(q):
    """Asks about sets of each kind, and of all three."""
    sets(q, Numbers(), 400, 25)
    sets(q, Addresses(4), 300, 25)
    sets(q, Addresses(6), 300, 25)
    for kind in (Numbers(), Addresses(4), Addresses(6)):
        paths(q, kind, 40)
    numbers(q)
    encodings(q)
    addresses(q)
    families(q)
    written(q)
    of_all(q)
    written_families(q)
