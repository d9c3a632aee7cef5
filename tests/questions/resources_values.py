"""Questions about resources that are built, values that are read from DER and written one by one, and sets of all three kinds by their
other calls.

The answers come from Python's own integers and sets, `ipaddress`, and X.690 and RFC 3779 for octets.
"""

from resources_parts import (
    as_bits, as_block, as_text, asn, bits, block_texts, integer, intersection, ip_family, LAST, length_of, maximal, read_block, rng,
    shortest, shown_set, some_blocks, some_runs, tlv, V6_LAST,
)


# Resources, builders and sets of addresses.


def resources(q):
    top = "AS0-AS4294967295"
    q.ask([*shown_set([(0, V6_LAST)]), False, True, *shown_set([]), True, True, *shown_set([])], "resources", "ends")
    q.ask([True], "resources", "untold")
    missing, inherit = [True, False, False], [False, True, True]
    for kind, none, refused in (("as", ["", ""], "inherited AS resources"), ("ip", ["=", "", "=", ""], "inherited IP resources")):
        q.ask(missing + none + [True, True, False], "resources", f"build-{kind}")
        q.ask(missing + none + [True, True, False], "resources", f"build-{kind}", "refused")
        q.ask(inherit + [refused] * 2 + [True, False, True], "resources", f"build-{kind}", "inherit")
        q.ask(inherit + [refused] * 2 + [True, False, True], "resources", f"build-{kind}", "inherit", "refused")
        # A list of no blocks isn't the same as no list.
        q.ask([False, False, True] + none + [True, False, False], "resources", f"listed-{kind}", "")
    present = [False, False, True]
    for words, text in (
        (["inherit", "AS2", "AS1"], "AS1-AS2"),
        (["AS9", "AS1-AS3"], "AS1-AS3, AS9"),
        (["AS9", "refused", "AS8"], "AS8-AS9"),
        (["AS9", "inherit", "AS7"], "AS7"),
        ([top], top),
    ):
        q.ask(present + [text, text, True, False, False], "resources", "build-as", *words)
    q.ask([False, True, True] + ["inherited AS resources"] * 2 + [True, False, True], "resources", "build-as", "AS9", "inherit")
    q.ask(present + ["AS1-AS3", "AS1-AS3", True, False, False], "resources", "listed-as", "AS3,AS1-AS2")
    for words in (
        ["inherit", "10.128.0.0/9", "10.0.0.0/9"],
        ["10.0.0.60/30", "10.0.0.48/28"],
        ["2001:db8:8000::/33", "refused", "2001:db8::/33"],
        ["::1/128", "inherit", "::2/127"],
    ):
        # What stands before `inherit` is given up.
        kept = words[words.index("inherit") + 1 :] if "inherit" in words else words
        runs = [read_block(text)[1:] for text in kept if text != "refused"]
        q.ask(present + shown_set(maximal(runs)) * 2 + [True, False, False], "resources", "build-ip", *words)
    q.ask([False, True, True] + ["inherited IP resources"] * 2 + [True, False, True], "resources", "build-ip", "10.0.0.0/9", "inherit")
    ten = shown_set([read_block("10.0.0.0/8")[1:]])
    q.ask(present + ten * 2 + [True, False, False], "resources", "listed-ip", "10.128.0.0/9, 10.0.0.0/9")
    q.ask(["AS64512", "AS64512"], "resources", "outside-as", "AS64496-AS64511", "AS64500, AS64512")
    q.ask("", "resources", "outside-as", "AS64496-AS64511", "AS64500")
    q.ask([False, *shown_set([read_block("11.0.0.0/8")[1:]]) * 2], "resources", "outside-ip", "10.0.0.0/8", "10.1.0.0/16, 11.0.0.0/8")
    q.ask([False], "resources", "outside-ip", "10.0.0.0/8", "10.1.0.0/16")
    sets(q)


def sets(q):
    texts = some_blocks(10)
    for text in texts:
        for other in rng.sample(texts, 5) + [text]:
            one, two = read_block(text)[1:], read_block(other)[1:]
            joined = maximal([one, two])
            whole = all(first % 2**96 == 0 and (last + 1) % 2**96 == 0 for first, last in joined)
            q.ask(shown_set(joined) + [True, True, whole, *(block_texts(*run)[1] for run in joined)], "resources", "set", text, other)
            q.ask(shown_set(intersection([one], [two])), "resources", "common", text, other)
    q.ask(["=", ""], "resources", "common", "10.0.0.0/8", "")


# Octets.


def size_of(octets):
    return [octets.hex(), len(octets)]


def prefix_octets(first, last):
    """The bits of a prefix (RFC 3779 2.2.3.8), or none."""
    length = length_of(first, last)
    return b"" if length is None else bits(first >> (128 - length), length)


def range_octets(first, last):
    """The shortest bits of both ends (RFC 3779 2.2.3.9)."""
    low, high = shortest(128, first, 0), shortest(128, last, 1)
    return tlv(0x30, bits(first >> (128 - low), low) + bits(last >> (128 - high), high))


def octets(q):
    for numbers in ((1, 2, 3), (0, LAST, 127), (128, 0, 256), (65535, 1, LAST)):
        whole = b"".join(map(integer, numbers))
        q.ask([asn(numbers[0]), asn(numbers[2])], "der", "asn", whole.hex())
        q.ask([asn(numbers[0]), None], "der", "asn", b"".join(map(integer, numbers[:2])).hex())
        q.ask([asn(numbers[0]), None], "der", "asn", (b"".join(map(integer, numbers[:2])) + tlv(5, b"")).hex())
    for wrong in ("", "0201", "020101", "0500", "020101 0500", "0205010000000002 0101", "0201FF 020101", "020101 02020001"):
        q.ask("refused", "der", "asn", wrong.replace(" ", ""))
    for runs in (((1, 2), (3, 3), (4, LAST)), ((0, LAST), (7, 9), (0, 0))):
        whole = b"".join(as_block(*run) for run in runs)
        q.ask([as_text(runs[0]), True, as_text(runs[2])], "der", "as-block", whole.hex())
    q.ask(["AS1", False, None], "der", "as-block", "020101")
    q.ask([None, False, None], "der", "as-block", "0500")
    for wrong in ("02020001", "3006020102020101", "3003020101", "3009020101020102020103"):
        q.ask("refused", "der", "as-block", wrong)
    for runs in ([], [(1, 1)], [(5, 9), (1, 2), (3, 3)]):
        content = tlv(0x30, b"".join(as_block(*run) for run in runs))
        q.ask("[" + ", ".join(map(as_text, maximal(runs))) + "]", "der", "as-set", content.hex())
    q.ask("refused", "der", "as-set", "0500")
    q.ask("4", "der", "family", "04020001")
    q.ask("6", "der", "family", "04020002")
    for wrong in ("04020003", "0500", "", "040100"):
        q.ask("refused", "der", "family", wrong)
    null, blocks = tlv(5, b""), tlv(0x30, bits(10, 8) + range_octets(12 << 120, (15 << 120) - 1))
    for content in (ip_family(4, blocks), ip_family(6, null), ip_family(4, null) + ip_family(6, blocks)):
        q.ask(size_of(tlv(0x30, content)), "der", "families", tlv(0x30, content).hex())
    q.ask("refused", "der", "families", "3000")
    ip_values(q)
    written(q)


def ip_values(q):
    ten, eleven = bits(10, 8), bits(11, 8)
    start = as_bits(4, 10 << 24)
    q.ask([start, 8, 8], "der", "prefix", (ten + eleven).hex(), "4")
    q.ask([start, 8, None], "der", "prefix", ten.hex(), "6")
    q.ask([0, 0, None], "der", "prefix", (bits(0, 0) + tlv(5, b"")).hex(), "4")
    q.ask("refused", "der", "prefix", bits(5, 33).hex(), "4")
    q.ask([5 << 95, 33, None], "der", "prefix", bits(5, 33).hex(), "6")
    q.ask("refused", "der", "prefix", bits(5, 129).hex(), "6")
    q.ask("refused", "der", "prefix", "0500", "4")
    span = tlv(0x30, ten + eleven)
    last = as_bits(4, 12 << 24) - 1
    q.ask([start, last, None], "der", "range", span.hex(), "4")
    q.ask([start, last, last], "der", "range", (span + span).hex(), "4")
    for wrong in (ten, tlv(0x30, ten), tlv(0x30, eleven + ten), b""):
        q.ask("refused", "der", "range", wrong.hex(), "4")
    # 10 and 11 in front are seven bits in front.
    q.ask(["a00::/8", "a00::/7"], "der", "block", (ten + span).hex(), "6")
    q.ask([None, None], "der", "block", "0500", "6")
    q.ask("refused", "der", "block", tlv(0x30, eleven + ten).hex(), "6")
    present = [False, True]
    for octets_, blocks_, facts_ in (
        (tlv(0x30, ten).hex(), "[a00::/8]", present),
        ("3000", "[]", present),
        ("0500", "refused", [True, True]),
        (ten.hex(), "refused", ["refused"]),
    ):
        q.ask(blocks_, "der", "set", octets_, "6")
        q.ask(facts_, "der", "resources", octets_, "6")


def written(q):
    for run in some_runs(LAST) + [(127, 128), (255, 256), (2**31, 2**31)]:
        block = as_block(*run)
        ranged = size_of(block) if run[0] != run[1] else []
        q.ask(size_of(integer(run[0])) + size_of(block) + ranged + size_of(block), "der", "write-as", as_text(run))
    for text in some_blocks(20):
        version, first, last = read_block(text)
        prefix, ranged = prefix_octets(first, last), range_octets(first, last)
        block = prefix or ranged
        family = tlv(4, bytes([0, 1 if version == 4 else 2]))
        parts = [block, block, ranged, *([prefix] if prefix else []), tlv(0x30, block), tlv(0x30, block), family]
        q.ask([word_ for part in parts for word_ in size_of(part)], "der", "write-ip", text)


# Sets of all three kinds.


def three(asn_, v4, v6):
    return f"asn: '{asn_}', ipv4: '{v4}', ipv6: '{v6}'"


def all_kinds(q):
    whole, none = three("AS0-AS4294967295", "0.0.0.0/0", "::/0"), three("", "", "")
    told = [whole, False, False, none, True, True, True, False]
    q.ask(told + [True, none, none, False, whole, none, False, none, whole], "set", "ends")
    rows = (
        ("AS2,AS1", "10.0.0.0/9,10.128.0.0/9", "2001:db8::/32", ("AS1-AS2", "10.0.0.0/8", "2001:db8::/32")),
        ("", "", "", ("", "", "")),
        ("AS7", "", "::/0", ("AS7", "", "::/0")),
        ("", "0.0.0.0/0", "::/0", ("", "0.0.0.0/0", "::/0")),
        ("as9, 7", "192.0.2.0/25, 192.0.2.128-192.0.2.254", "", ("AS7, AS9", "192.0.2.0-192.0.2.254", "")),
    )
    for asn_, v4, v6, shown in rows:
        same = (v4, v6) in (("", ""), ("0.0.0.0/0", "::/0"))
        q.ask([three(*shown), True, True, shown[0], same, True, True], "set", "made", asn_, v4, v6)
        q.ask(three(*shown), "set", "read", asn_, v4, v6)
        q.ask([True], "set", "again", asn_, v4, v6)
    checked(q)
    q.ask("cannot parse ASN resources: invalid AS number", "set", "read", "x", "10.0.0.0/8", "::/0")
    q.ask("cannot parse IPv4 resources: invalid address", "set", "read", "AS1", "10.0.0/8", "::/0")
    q.ask("cannot parse IPv6 resources: invalid prefix length", "set", "read", "AS1", "10.0.0.0/8", "::/129")
    q.ask("cannot parse IPv4 resources: addresses of different families", "set", "read", "AS1", "::/0", "::/0")
    q.ask("cannot parse IPv6 resources: addresses of different families", "set", "read", "AS1", "", "10.0.0.0/8")
    refusals = "out of memory; cannot determine resources: some are inherited; out of memory;"
    q.ask(refusals, "set", "texts")
    # Each of the three identifiers of a policy is told by its own table alone.
    own = [[i == j for j in range(3)] for i in range(3)]
    for policy, is_trim in (("refuse", False), ("trim", True)):
        q.ask([word_ for row in own for word_ in [is_own and is_trim for is_own in row] + row], "set", policy)


# The faults of a text of each kind: the first faulty piece says what is wrong.
AS_FAULTS = {
    "invalid list of AS blocks": (",", "AS1,", "AS1, ", ",AS1", "AS1,,AS2", "AS1,,x"),
    "invalid AS number": ("x", "AS", "AS4294967296", "AS1-", "-AS1", " AS1", "AS1,  AS2", "AS1 ,AS2", "inherit", "AS1, x, "),
    "invalid AS range": ("AS2-AS1", "AS1, AS9-AS2, x"),
}
V4_FAULTS = {
    "invalid list of blocks": (",", "10.0.0.0/8,", "10.0.0.0/8, ", ",10.0.0.0/8", "10.0.0.0/8,,11.0.0.0/8"),
    "invalid address": ("10.0.0/8", "10.0.0.0-", " 10.0.0.0/8", "10.0.0.0/8,  11.0.0.0/8", "256.0.0.0/8"),
    "invalid prefix length": ("10.0.0.0/33", "10.0.0.0/", "10.0.0.0/8 , 11.0.0.0/8"),
    "missing separator": ("10.0.0.0", "10.0.0.0/8, 11.0.0.0, x"),
    "invalid range": ("10.0.0.9-10.0.0.0", "11.0.0.0/8, 10.0.0.9-10.0.0.0"),
    "addresses of different families": ("::/0", "10.0.0.0/8, 2001:db8::/32, x"),
}
V6_FAULTS = {
    "invalid list of blocks": (",", "::/0,", "::/0, ", ",::/0", "::/0,,::1/128"),
    "invalid address": (":::/8", "::-:", " ::/0", "::/0,  ::1/128", "g::/8"),
    "invalid prefix length": ("::/129", "::/", "::/0 , ::1/128"),
    "missing separator": ("2001:db8::", "::/0, ::1, x"),
    "invalid range": ("::9-::1", "::/0, ::9-::1"),
    "addresses of different families": ("10.0.0.0/8", "::/0, 10.0.0.0/8, :"),
}


def checked(q):
    """Texts that are tested alone, and as three of which the first faulty one is told."""
    good = ("AS2, AS1,AS7-AS9", "10.0.0.0/9,10.128.0.0/9", "::/1, 8000::-ffff::")
    kinds = (("ASN", AS_FAULTS), ("IPv4", V4_FAULTS), ("IPv6", V6_FAULTS))
    q.ask(["good; good; good;"], "set", "check", *good)
    q.ask(["good; good; good;"], "set", "check", "", "", "")
    for at, (name, faults) in enumerate(kinds):
        for fault, texts in faults.items():
            for text in texts:
                words = [text if i == at else it for i, it in enumerate(good)]
                q.ask(" ".join(f"{fault};" if i == at else "good;" for i in range(3)), "set", "check", *words)
                q.ask(f"cannot parse {name} resources: {fault}", "set", "read", *words)
                # Where a later one is faulty, too, or has nothing, the same is told.
                for later in ("x", "", ",") if at < 2 else ():
                    others = [later if i > at else it for i, it in enumerate(words)]
                    q.ask(f"cannot parse {name} resources: {fault}", "set", "read", *others)


def ask(q):
    """Asks about each topic."""
    for part in (resources, octets, all_kinds):
        part(q)
