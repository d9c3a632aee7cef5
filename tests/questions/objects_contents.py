"""Questions about what signed objects have in them, for tests/questions/objects.py: contents of ROAs, ASPAs and manifests.

They are read by the grammars in this script's own words, over the reader of X.690 in certificates_x690.py; the worked cases have
their answers by hand.
"""

import calendar
import ipaddress
import random
import re

from certificates_signed import RSA, SHA256, SHA256_RSA
from certificates_x690 import Refused, bits_of, content_of, need, parts_of, value
from rpki_repositories import bits, integer, seq, tlv

rng = random.Random(9582)


# Writers.


def version(n):
    return tlv(0xA0, integer(n))


# Readers of values, each of an item that was read.


def number_of(item, below):
    content = content_of(item, 2)
    need(content and not (len(content) > 1 and content[0] in (0, 255) and content[0] >> 7 == content[1] >> 7))
    n = int.from_bytes(content, "big", signed=True)
    need(0 <= n < below)
    return n


def is_tagged(item, number):
    return item.tag == (2, number)


def told_version(parts, n):
    """Whether the version is in front: [0] and INTEGER n."""
    if not parts or not is_tagged(parts[0], 0):
        return False
    inner = parts[0].parts
    need(inner is not None and len(inner) == 1 and number_of(inner[0], 256) == n)
    return True


# Provider attestations (draft-ietf-sidrops-aspa-profile).


def aspa_of(data):
    item, _ = value(data, "der")
    parts = parts_of(item, 16)
    need(told_version(parts, 1) and len(parts) == 3)
    customer = number_of(parts[1], 2**32)
    providers = [number_of(part, 2**32) for part in parts_of(parts[2], 16)]
    need(1 <= len(providers) <= 10000 and all(a < b for a, b in zip(providers, providers[1:])))
    need(customer not in providers and (0 not in providers or providers == [0]))
    return customer, providers


def aspa_told(customer, providers):
    words = [f"AS{customer}", len(providers), *providers, len(providers), f"AS{customer}", "x" + aspa(customer, providers).hex()]
    return " ".join(map(str, words))


def aspa(customer, providers, front=version(1)):
    return seq(front, integer(customer), seq(*map(integer, providers)))


# Route origin attestations (RFC 9582 4).

WIDTHS = {b"\0\1": 32, b"\0\2": 128}


def address_of(item, width):
    parts = parts_of(item, 16)
    need(1 <= len(parts) <= 2)
    content = bits_of(parts[0], "der")
    size = 8 * len(content) - 8 - content[0]
    need(size <= width)
    greatest = None
    if len(parts) == 2:
        greatest = number_of(parts[1], 256)
        need(size <= greatest <= width)
    first = int.from_bytes(content[1:].ljust(width // 8, b"\0"), "big")
    text = str(ipaddress.IPv4Address(first) if width == 32 else ipaddress.IPv6Address(first))
    return f"{text}/{size}", size, greatest


def roa_of(data):
    item, _ = value(data, "der")
    parts = parts_of(item, 16)
    fields = parts[1:] if told_version(parts, 0) else parts
    need(len(fields) == 2)
    origin = number_of(fields[0], 2**32)
    families = {32: [], 128: []}
    blocks = parts_of(fields[1], 16)
    need(1 <= len(blocks) <= 2)
    seen = set()
    for block in blocks:
        family = parts_of(block, 16)
        need(len(family) == 2)
        width = WIDTHS.get(content_of(family[0], 4))
        need(width and width not in seen)
        seen.add(width)
        families[width] = [address_of(part, width) for part in parts_of(family[1], 16)]
    return origin, families[32], families[128]


def roa_told(origin, v4, v6):
    prefixes = [f"{text}-{size if greatest is None else greatest}" for text, size, greatest in v4 + v6]
    lengths = [["true" if not some else "false", *("-" if one[2] is None else one[2] for one in some)] for some in (v4, v6)]
    return " ".join(map(str, [f"AS{origin}", *prefixes, "v4", *lengths[0], "v6", *lengths[1], *(f"{one}=AS{origin}" for one in prefixes)]))


def address(octets, unused=0, greatest=None):
    return seq(bits(octets, unused), b"" if greatest is None else integer(greatest))


def family(kind, *addresses):
    return seq(tlv(4, bytes([0, kind])), seq(*addresses))


def roa(origin, *families, front=b""):
    return seq(front, integer(origin), seq(*families))


# Manifests (RFC 9286 4.2).

NAME = re.compile(rb"[A-Za-z0-9_-]+\.[A-Za-z]{3}")


def is_moment(text):
    if not re.fullmatch(rb"[0-9]{14}Z", text):
        return False
    year, month, day, hour, minute, second = (int(text[a:b]) for a, b in ((0, 4), (4, 6), (6, 8), (8, 10), (10, 12), (12, 14)))
    return 1 <= month <= 12 and 1 <= day <= calendar.monthrange(year or 400, month)[1] and hour < 24 and minute < 60 and second < 60


def general_of(item):
    content = content_of(item, 24)
    need(is_moment(content))
    return content.decode()


def file_of(item):
    parts = parts_of(item, 16)
    need(len(parts) == 2)
    name, content = content_of(parts[0], 22), bits_of(parts[1], "der")
    need(NAME.fullmatch(name) and content[0] == 0)
    return name.decode(), content[1:]


def manifest_of(data):
    item, _ = value(data, "der")
    parts = parts_of(item, 16)
    fields = parts[1:] if told_version(parts, 0) else parts
    need(len(fields) == 5 and content_of(fields[3], 6) == SHA256)
    moments = general_of(fields[1]), general_of(fields[2])
    return number_of(fields[0], 2**160), *moments, [file_of(part) for part in parts_of(fields[4], 16)]


def manifest_told(number, this, following, files):
    listed = [word for name, octets in files for word in (name, "x" + octets.hex())]
    return " ".join(map(str, [number, this, following, len(files), "false" if files else "true", *listed]))


def manifest(number, this, following, files, front=b"", digest=SHA256):
    listed = (seq(tlv(22, name), bits(octets)) for name, octets in files)
    return seq(front, integer(number), tlv(24, this), tlv(24, following), tlv(6, digest), seq(*listed))


KINDS = {"aspa": (aspa_of, aspa_told), "roa": (roa_of, roa_told), "manifest": (manifest_of, manifest_told)}


def answer_of(kind, data):
    read, told = KINDS[kind]
    try:
        return told(*read(data))
    except Refused:
        return "refused"


def ask(q, kind, data, expected=None):
    """Asks about octets. An answer that is known otherwise has to be this script's."""
    answer = answer_of(kind, data)
    assert expected is None or answer == expected, (kind, data.hex(), answer, expected)
    q.ask(answer, kind, *(["read"] if kind == "manifest" else []), data.hex())


def cut_and_changed(q, kind, data):
    """Itself, with octets behind it, cut off at each octet, and with each octet changed, each way by one bit."""
    ask(q, kind, data)
    ask(q, kind, data + b"\0\xff")
    for end in range(1, len(data)):
        ask(q, kind, data[:end])
    for at in range(len(data)):
        for bit in rng.sample([1, 2, 4, 8, 16, 32, 64, 128], 3):
            ask(q, kind, data[:at] + bytes([data[at] ^ bit]) + data[at + 1 :])


def headers(data, at=0):
    """The place of each identifier octet in a value of DER, and where its content begins; lengths below 128 here."""
    end = at + 2 + data[at + 1]
    yield at
    if data[at] & 32:
        at += 2
        while at < end:
            yield from headers(data, at)
            at += 2 + data[at + 1]


def odd_lengths(q, kind, data):
    """Each value in turn with lengths that aren't the shortest, of five octets, past the end, and indefinite."""
    for at in headers(data):
        for length in ("84ffffffff", "8400000001", "8500000000ff", "81" + data[at + 1 : at + 2].hex(), "80", "ff", "847fffffff"):
            ask(q, kind, data[:at] + data[at : at + 1] + bytes.fromhex(length) + data[at + 2 :], "refused")


def nested(depth, tag=0x30):
    """So many values in each other."""
    content = b""
    for _ in range(depth):
        content = tlv(tag, content)
    return content


def aspas(q):
    ask(q, "aspa", bytes.fromhex("301da003020101"  "02023cca" "3012" "02020b62" "0202205b" "020300c790" "020303259e"),
        "AS15562 4 2914 8283 51088 206238 4 AS15562 x301da00302010102023cca301202020b620202205b020300c790020303259e")
    ask(q, "aspa", bytes.fromhex("300ea00302010102023cca3003020100"), "AS15562 1 0 1 AS15562 x300ea00302010102023cca3003020100")
    ask(q, "aspa", bytes.fromhex("3012a00302010102023cca300702010002020b62"), "refused")
    ask(q, "aspa", aspa(15562, [2914, 2914]), "refused")
    ask(q, "aspa", aspa(15562, [15562]), "refused")
    ask(q, "aspa", aspa(15562, [2914, 15562, 20000]), "refused")
    ask(q, "aspa", aspa(15562, []), "refused")
    ask(q, "aspa", aspa(15562, [8283, 2914]), "refused")
    ask(q, "aspa", aspa(15562, [2914], b""), "refused")
    ask(q, "aspa", aspa(15562, [2914], version(0)), "refused")
    ask(q, "aspa", aspa(15562, [2914], version(2)), "refused")
    ask(q, "aspa", aspa(15562, [2914], tlv(0xA1, integer(1))), "refused")
    ask(q, "aspa", aspa(15562, [2914], tlv(0x80, b"\1")), "refused")
    ask(q, "aspa", aspa(15562, [2914], tlv(0xA0, integer(1) * 2)), "refused")
    ask(q, "aspa", aspa(15562, [2**32 - 1]), aspa_told(15562, [2**32 - 1]))
    ask(q, "aspa", aspa(15562, [2**32]), "refused")
    ask(q, "aspa", aspa(2**32, [1]), "refused")
    ask(q, "aspa", aspa(0, [1]), aspa_told(0, [1]))
    ask(q, "aspa", aspa(0, [0]), "refused")
    ask(q, "aspa", aspa(2**32 - 1, [0]), aspa_told(2**32 - 1, [0]))
    ask(q, "aspa", seq(version(1), integer(7), seq(tlv(2, b"\xff"))), "refused")
    ask(q, "aspa", seq(version(1), integer(7), seq(tlv(2, b"\0\1"))), "refused")
    ask(q, "aspa", seq(version(1), integer(7), seq(tlv(2, b""))), "refused")
    ask(q, "aspa", seq(version(1), integer(7), tlv(0x31, integer(1))), "refused")
    ask(q, "aspa", seq(version(1), integer(7), seq(integer(1)), seq(integer(1))), "refused")
    ask(q, "aspa", seq(version(1), integer(7), seq(integer(1)), tlv(5, b"")), "refused")
    ask(q, "aspa", seq(version(1), integer(7)), "refused")
    ask(q, "aspa", seq(version(1), integer(7), seq(seq(integer(1)))), "refused")
    ask(q, "aspa", b"", "refused")
    good = aspa(15562, [2914, 8283, 51088, 206238])
    cut_and_changed(q, "aspa", good)
    odd_lengths(q, "aspa", good)
    many = range(1000, 11001)
    ask(q, "aspa", aspa(65536, many[:10000]), aspa_told(65536, many[:10000]))
    ask(q, "aspa", aspa(65536, many), "refused")
    q.ask("refused", "aspa", seq(version(1), integer(7), nested(10000)).hex())
    q.ask("refused", "aspa", nested(10000).hex())
    q.ask("refused", "aspa", "3080*10000")


def roas(q):
    one = bytes([192, 0, 2])
    for greatest, told in ((23, None), (24, 24), (32, 32), (33, None), (255, None), (256, None)):
        expected = "refused" if told is None else f"AS64496 192.0.2.0/24-{told} v4 false {told} v6 true 192.0.2.0/24-{told}=AS64496"
        ask(q, "roa", roa(64496, family(1, address(one, 0, greatest))), expected)
    ask(q, "roa", bytes.fromhex("301b020300fbf03014301204020002300c300a0305002001" "0db8" "020130"),
        "AS64496 2001:db8::/32-48 v4 true v6 false 48 2001:db8::/32-48=AS64496")
    ask(q, "roa", roa(64496, family(1, address(one))), "AS64496 192.0.2.0/24-24 v4 false - v6 true 192.0.2.0/24-24=AS64496")
    wide = bytes.fromhex("20010db8")
    for front in (b"", version(0)):
        ask(q, "roa", roa(1, family(1, address(one)), front=front), roa_told(1, [("192.0.2.0/24", 24, None)], []))
    for front in (version(1), tlv(0xA0, b""), tlv(0xA1, integer(0)), tlv(0x80, b"\0"), version(0) * 2):
        ask(q, "roa", roa(1, family(1, address(one)), front=front), "refused")
    four, six = family(1, address(one, 0, 25)), family(2, address(wide, 0, 64), address(b"\xfe\x80", 6))
    both = "AS1 192.0.2.0/24-25 2001:db8::/32-64 fe80::/10-10 v4 false 25 v6 false 64 - 192.0.2.0/24-25=AS1 2001:db8::/32-64=AS1 fe80::/10-10=AS1"
    ask(q, "roa", roa(1, four, six), both)
    ask(q, "roa", roa(1, six, four), both)
    ask(q, "roa", roa(1, four, four), "refused")
    ask(q, "roa", roa(1, six, six), "refused")
    ask(q, "roa", roa(1, four, six, four), "refused")
    ask(q, "roa", roa(1), "refused")
    ask(q, "roa", roa(1, family(1)), "AS1 v4 true v6 true")
    ask(q, "roa", roa(1, family(1), family(2)), "AS1 v4 true v6 true")
    ask(q, "roa", roa(1, family(3, address(one))), "refused")
    ask(q, "roa", roa(1, family(0, address(one))), "refused")
    for name in (b"\1", b"\0\1\1", b"", b"\1\0", b"\0\0\1"):
        ask(q, "roa", roa(1, seq(tlv(4, name), seq(address(one)))), "refused")
    # Lengths, and octets behind them: no host bits can be told, as DER has zeros there.
    for width, kind in ((32, 1), (128, 2)):
        for size in range(width + 9):
            octets = ((2**size - 1) << -size % 8).to_bytes((size + 7) // 8, "big")
            for greatest in dict.fromkeys((None, size - 1, size, width, width + 1)):
                if greatest is None or greatest >= 0:
                    ask(q, "roa", roa(1, family(kind, address(octets, -size % 8, greatest))))
    for octets, unused in ((b"\xc0\0\3", 1), (b"\xff", 7), (b"\xff", 8), (b"", 1), (b"", 0), (b"\0", 0), (b"\x80", 7), (b"\xff", 0)):
        ask(q, "roa", roa(1, family(1, address(octets, unused))))
    ask(q, "roa", roa(1, family(1, seq())), "refused")
    ask(q, "roa", roa(1, family(1, seq(tlv(3, b"")))), "refused")
    ask(q, "roa", roa(1, family(1, bits(one))), "refused")
    ask(q, "roa", roa(1, family(1, seq(bits(one), integer(24), integer(24)))), "refused")
    ask(q, "roa", roa(1, family(1, seq(integer(24), bits(one)))), "refused")
    ask(q, "roa", roa(1, family(1, seq(bits(one), tlv(5, b"")))), "refused")
    ask(q, "roa", roa(1, family(1, seq(bits(one), tlv(2, b"\0\x18")))), "refused")
    ask(q, "roa", roa(1, family(1, seq(bits(one), tlv(2, b"\xe8")))), "refused")
    ask(q, "roa", roa(1, seq(tlv(4, b"\0\1"), tlv(5, b""))), "refused")
    ask(q, "roa", roa(1, seq(tlv(4, b"\0\1"))), "refused")
    ask(q, "roa", roa(1, seq(tlv(4, b"\0\1"), seq(), seq())), "refused")
    ask(q, "roa", roa(2**32 - 1, four), roa_told(2**32 - 1, [("192.0.2.0/24", 24, 25)], []))
    ask(q, "roa", roa(2**32, four), "refused")
    ask(q, "roa", roa(0, four), roa_told(0, [("192.0.2.0/24", 24, 25)], []))
    ask(q, "roa", seq(tlv(2, b"\x80"), seq(four)), "refused")
    ask(q, "roa", seq(integer(1), tlv(0x31, four)), "refused")
    ask(q, "roa", seq(integer(1), seq(four), seq(four)), "refused")
    good = roa(64496, family(1, address(one, 0, 24), address(b"\x0a", 0)), six, front=version(0))
    cut_and_changed(q, "roa", good)
    odd_lengths(q, "roa", good)
    thousands = [address(at.to_bytes(2, "big"), 0) for at in range(2000)]
    ask(q, "roa", roa(1, family(1, *thousands)))
    for inner in (nested(10000), nested(9999, 0xA0)):
        q.ask("refused", "roa", seq(integer(1), inner).hex())


def manifests(q):
    this, following, digest = b"20261123000000Z", b"20261124000000Z", bytes(range(32))
    files = [(b"a.roa", digest), (b"B_-9.crl", digest[::-1])]
    good = manifest(7, this, following, files)
    text = f"7 20261123000000Z 20261124000000Z 2 false a.roa x{digest.hex()} B_-9.crl x{digest[::-1].hex()}"
    ask(q, "manifest", good, text)
    ask(q, "manifest", manifest(7, this, following, files, version(0)), text)
    ask(q, "manifest", manifest(7, this, following, []), "7 20261123000000Z 20261124000000Z 0 true")
    for front in (version(1), tlv(0xA0, b""), tlv(0xA1, integer(0)), tlv(0x80, b"\0"), integer(0)):
        ask(q, "manifest", manifest(7, this, following, files, front), "refused")
    for number in (0, 2**64, 2**159, 2**160 - 1, 2**160, 2**168):
        ask(q, "manifest", manifest(number, this, following, []), "refused" if number >= 2**160 else f"{number} 20261123000000Z 20261124000000Z 0 true")
    ask(q, "manifest", seq(tlv(2, b"\xff"), tlv(24, this), tlv(24, following), tlv(6, SHA256), seq()), "refused")
    ask(q, "manifest", manifest(7, following, this, []), "7 20261124000000Z 20261123000000Z 0 true")
    for moment in (b"20260229000000Z", b"20240229000000Z", b"00000229000000Z", b"20261123240000Z", b"20261123235960Z", b"20261123236000Z", b"20261123235959Z",
                   b"99991231235959Z", b"20261123000000", b"202611230000Z", b"20261123000000.0Z", b"20261123000000+0000", b"20261301000000Z", b"20260001000000Z",
                   b"20260100000000Z", b"20260431000000Z", b"2026112300000aZ", b"261123000000Z", b"", b"19000229000000Z", b"20000229000000Z", b"20261123000000z"):
        ask(q, "manifest", manifest(7, moment, following, []))
        ask(q, "manifest", manifest(7, this, moment, []))
    for tag in (23, 22):
        ask(q, "manifest", seq(integer(7), tlv(tag, b"261123000000Z"), tlv(24, following), tlv(6, SHA256), seq()), "refused")
    for name in (RSA, SHA256_RSA, SHA256[:-1] + b"\2", b"", SHA256 + b"\0"):
        ask(q, "manifest", manifest(7, this, following, files, digest=name), "refused")
    ask(q, "manifest", seq(integer(7), tlv(24, this), tlv(24, following), seq(tlv(6, SHA256)), seq()), "refused")
    # Names as in the Rust crate's tests, and others; a hash of any length, whole octets.
    names = {b"correct.ASA": True, b"slash//es.mft": False, b"multiple.dots.in.file.name.roa": False, b"too_long_extension.koen": False}
    for name, is_good in names.items():
        ask(q, "manifest", manifest(7, this, following, [(name, digest)]), f"7 20261123000000Z 20261124000000Z 1 false {name.decode()} x{digest.hex()}" if is_good else "refused")
    some = [*names, b"", b".roa", b"a", b"a.", b"a.r", b"a.ro", b"a.roas", b"a.r0a", b"a.roa.", b"a..roa", b"a b.roa", b"a.roa ", b" a.roa", b"a/b.roa", b"../a.roa",
            b"a\0.roa", b"a.roa\0", b"-.-_-", b"-_.AbC", b"9.zZz", b"\xc3\xa9.roa", b"a\x80.roa", b"a.ro\xe1", b"a" * 300 + b".cer", b"a.roa\n", b"A~.roa", b"a:b.roa"]
    for octet in range(256):
        some += [bytes([octet]) + b".roa", b"a." + bytes([octet]) + b"oa"]
    for name in some:
        q.ask("true" if NAME.fullmatch(name) else "false", "manifest", "name", name.hex())
    for name in some[:60]:
        ask(q, "manifest", manifest(7, this, following, [(name, digest)]))
    for octets in (b"", b"\0", digest * 2, digest[:31]):
        ask(q, "manifest", manifest(7, this, following, [(b"a.roa", octets), (b"a.roa", octets)]))
    for content in (b"", b"\1\2", b"\x08\0", b"\1", b"\0"):
        ask(q, "manifest", seq(integer(7), tlv(24, this), tlv(24, following), tlv(6, SHA256), seq(seq(tlv(22, b"a.roa"), tlv(3, content)))))
    for entry in (seq(tlv(22, b"a.roa")), seq(tlv(12, b"a.roa"), bits(digest)), seq(tlv(22, b"a.roa"), bits(digest), tlv(5, b"")), seq(), tlv(22, b"a.roa"),
                  seq(tlv(22, b"a.roa"), tlv(4, digest)), tlv(0x31, tlv(22, b"a.roa") + bits(digest)), seq(bits(digest), tlv(22, b"a.roa"))):
        ask(q, "manifest", seq(integer(7), tlv(24, this), tlv(24, following), tlv(6, SHA256), seq(entry)), "refused")
    fields = [integer(7), tlv(24, this), tlv(24, following), tlv(6, SHA256), seq()]
    for at in range(5):
        ask(q, "manifest", seq(*fields[:at], *fields[at + 1 :]), "refused")
        ask(q, "manifest", seq(*fields[: at + 1], fields[at], *fields[at + 1 :]), "refused")
    ask(q, "manifest", seq(*fields, tlv(5, b"")), "refused")
    for moment in ("20261123235959", "20261124000000", "20261124000001", "99991231235959", "00000101000000"):
        q.ask("true" if moment > "20261124000000" else "false", "manifest", "stale", good.hex(), moment + "Z")
    short = manifest(7, this, following, [(b"a.roa", digest[:4])], version(0))
    cut_and_changed(q, "manifest", short)
    odd_lengths(q, "manifest", short)
    ask(q, "manifest", manifest(7, this, following, [(b"f%d.roa" % at, digest) for at in range(1000)]))
    q.ask("refused", "manifest", "read", seq(*fields[:4], nested(10000)).hex())


def contents(q):
    """Asks all."""
    aspas(q)
    roas(q)
    manifests(q)
