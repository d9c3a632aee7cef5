#!/usr/bin/env python3
"""Writes the questions and answers of the examples that are programs: `stdin` and `stdout` of `crates/example_codec`,
`example_resources`, `example_certificate`, `example_checklist` and `example_validator`. Tallies are written by an encoder of
its own; what isn't held, what a certificate has, what becomes of a checklist, and what a bundle means was thought out by hand.
Certificates, objects and bundles are made by rpki_repositories.py, checklists by objects_rsc.py."""

import hashlib
import pathlib
import sys

sys.dont_write_bytecode = True
sys.path.insert(0, str(pathlib.Path(__file__).resolve().parents[1] / "lib"))

import objects_rsc as rsc  # noqa: E402
import rpki_repositories as world  # noqa: E402

CRATES = pathlib.Path(__file__).resolve().parents[2] / "crates"


def value(tag, content):
    """A value of fewer than 128 octets in DER (X.690 8.1)."""
    return bytes([tag, len(content)]) + content


def integer(number):
    """X.690 8.3: two's complement in the fewest octets."""
    return value(0x02, number.to_bytes(number.bit_length() // 8 + 1, "big"))


def tally(station, count):
    """X.690 8.9: a SEQUENCE of two INTEGERs."""
    return value(0x30, integer(station) + integer(count))


TALLIES = [(7, 1000), (0, 0), (127, 127), (128, 255), (255, 32767), (32768, 2**63 - 1), (65535, 2**64 - 2)]

# What is no tally, and where the value is that is missing or isn't whole.
NO_TALLIES = [("", "no value (at position 0)"), ("3005020107020203", "no value (at position 5)"), ("3003020107", "no value (at position 5)")]


def codec():
    for station, count in TALLIES:
        digits, text = tally(station, count).hex(), f"station {station}: {count}, next {tally(station, count + 1).hex()}"
        yield digits, text
        # What stands after a tally isn't read.
        yield f"{digits}00ff", text
    # The greatest count is the last.
    last = tally(1, 2**64 - 1).hex()
    yield last, f"station 1: {2**64 - 1}, next {last}"
    for digits, text in NO_TALLIES:
        yield digits, f"refused: {text}"


def resources():
    yield "claim\t\t\t", "inside"
    yield "claim\tAS1\t\t", "outside asn: 'AS1', ipv4: '', ipv6: ''"
    yield (
        "hold\tAS64496-AS64500,AS64501\t192.0.2.0/25,192.0.2.128/25\t2001:db8::/33,2001:db8:8000::/33",
        "held asn: 'AS64496-AS64501', ipv4: '192.0.2.0/24', ipv6: '2001:db8::/32'",
    )
    yield "claim\tAS64496,AS64501\t192.0.2.7-192.0.2.9\t2001:db8:1::/48", "inside"
    yield "claim\tAS64496-AS64501\t192.0.2.0/24\t2001:db8::/32", "inside"
    yield "claim\t\t\t", "inside"
    yield "claim\tAS64495-AS64497\t\t", "outside asn: 'AS64495', ipv4: '', ipv6: ''"
    yield "claim\tAS64490-AS64510\t\t", "outside asn: 'AS64490-AS64495, AS64502-AS64510', ipv4: '', ipv6: ''"
    yield (
        "claim\tAS64499\t192.0.1.255-192.0.3.0\t2001:db8::/31",
        "outside asn: '', ipv4: '192.0.1.255/32, 192.0.3.0/32', ipv6: '2001:db9::/32'",
    )
    yield "claim\t\t0.0.0.0/0\t", "outside asn: '', ipv4: '0.0.0.0-192.0.1.255, 192.0.3.0-255.255.255.255', ipv6: ''"
    yield "claim\tAS64500-AS64499\t\t", "refused: cannot parse ASN resources: invalid AS range"
    yield "claim\t\t192.0.2.0/33\t", "refused: cannot parse IPv4 resources: invalid prefix length"
    yield "hold\t\t\t", "held asn: '', ipv4: '', ipv6: ''"
    yield "claim\t\t\t::/0", "outside asn: '', ipv4: '', ipv6: '::/0'"
    yield "keep\t\t\t", "refused: neither 'hold' nor 'claim'"
    yield "claim", "refused: not a word and three texts"


def checklists():
    """A checklist of two files, of which one has no name, below an anchor."""
    files = {"a.txt": b"the first file", "b.txt": b"the second file"}
    digests = {name: world.tlv(4, hashlib.sha256(octets).digest()) for name, octets in files.items()}
    entries = [world.seq(world.tlv(0x16, b"a.txt"), digests["a.txt"]), world.seq(digests["b.txt"])]
    content = rsc.checklist(rsc.STATED, entries=world.seq(*entries))

    def line(name, octets, moment=world.MOMENT, **parts):
        made = rsc.Made(place=b"", content=content, **parts).octets()
        return "\t".join((moment.decode(), rsc.ANCHOR.hex(), made.hex(), name, octets.hex()))

    yield line("a.txt", files["a.txt"]), "listed"
    yield line("a.txt", files["a.txt"] + b"."), "not listed"
    yield line("A.txt", files["a.txt"]), "not listed"
    yield line("b.txt", files["b.txt"]), "not listed"
    yield line("", files["b.txt"]), "not listed"
    yield line("a.txt", files["a.txt"], content_key=2), "refused: bad signature"
    yield line("a.txt", files["a.txt"], moment=world.FIRST), "listed"
    yield line("a.txt", files["a.txt"], moment=b"20270101000000Z"), "refused: no trust anchor"
    yield line("a.txt", files["a.txt"], claims={"as": [64496]}), "refused: uncovered resources"
    yield line("a.txt", files["a.txt"], kind=world.ROA), "refused: no checklist"
    yield line("a.txt", files["a.txt"], moment=b"20250101"), "refused: no moment"
    yield "a.txt", "refused: not five words"


def certificates():
    """A trust anchor's certificate, one of an authority below it, and one of an object's signer, each with what it was made of."""
    made = world.World()
    names = {key: made.name(key).hex() for key in (1, 2, 3)}

    def told(key, issuer, serial, from_to, is_ca, claims, uris):
        lines = [
            f"serial number {serial}",
            f"issuer {names[issuer]}",
            f"subject {names[key]}",
            f"key {hashlib.sha1(world.key_bits(key)).hexdigest()}",
            *(f"{word} {moment.decode()}" for word, moment in zip(("from", "to"), from_to)),
            f"authority {str(is_ca).lower()}",
            *(f"{word} {claimed}" for word, claimed in zip(("IPv4", "IPv6", "AS"), claims)),
            *(f"{what} {uri.decode()}" for what, uri in uris),
        ]
        return "\n".join(lines)

    claims = {"ipv4": ["192.0.2.0/25", "192.0.2.128/25", ("198.51.100.1", "198.51.100.9")], "ipv6": ["2001:db8::/32"], "as": [64496, (64497, 64511)]}
    top = made.anchor(1, claims, serial=2**64)
    shown = ("192.0.2.0/24, 198.51.100.1-198.51.100.9", "2001:db8::/32", "AS64496-AS64511")
    uris = [("repository", top.folder), ("manifest", top.manifest)]
    octets = made.objects[top.at]
    yield octets.hex(), told(1, 1, 2**64, (world.FIRST, world.LAST), True, shown, uris)
    # What stands after a certificate isn't read.
    yield f"{octets.hex()}00", told(1, 1, 2**64, (world.FIRST, world.LAST), True, shown, uris)

    below = made.authority(2, world.HOST + b"a/", b"a")
    lasts = (b"20250101000000Z", b"20500101000000Z")
    top.certify(b"a.cer", below, {"ipv4": "inherit", "as": "inherit"}, serial=1, validity=lasts)
    uris = [("revocation list", top.crl), ("repository", below.folder), ("manifest", below.manifest)]
    yield top.files[b"a.cer"].hex(), told(2, 1, 1, lasts, True, ("inherit", "", "inherit"), uris)

    place = below.folder + b"o.roa"
    parts = [*below.below(3, False), world.access((11, place)), world.policies(False), *world.claims_of({"ipv6": ["2001:db8::/48"]})]
    octets = made.cert(3, 2, parts, serial=7)
    uris = [("revocation list", below.crl), ("object", place)]
    yield octets.hex(), told(3, 2, 7, (world.FIRST, world.LAST), False, ("", "2001:db8::/48", ""), uris)

    yield "", "refused: no value (at position 0)"


def validators():
    """Bundles of an authority below an anchor, with their lines, their good objects, and what is refused and why."""

    def told(lines, good, refused):
        lines = lines + [f"{uri} is good: true" for uri in good]
        return "\n".join(lines + [f"{uri} is refused: {why}" for uri, why in refused])

    def repository(serial=9, **how):
        """One with two ROAs and an ASPA, and a revoked serial number; `how` the certificate of the second ROA is signed."""
        made = world.World()
        top = made.anchor(1, {"ipv4": ["192.0.2.0/24", "198.51.100.0/24"], "as": [(64496, 64511)]}, b"example")
        isp = made.authority(2, world.HOST + b"isp/", b"isp")
        top.certify(b"isp.cer", isp, {"ipv4": ["192.0.2.0/24"], "as": [64496]})
        top.publish()
        isp.add_roa(b"a.roa", world.roa(64496, "192.0.2.0/24-26"), {"ipv4": ["192.0.2.0/24"]})
        before = set(made.verdicts)
        isp.add_roa(b"b.roa", world.roa(64499, "192.0.2.0/25"), {"ipv4": ["192.0.2.0/25"]}, serial=serial, **how)
        # the signatures of the second ROA, and of its certificate
        apart = [row for row in made.verdicts if row not in before]
        isp.add_aspa(b"c.asa", world.aspa(64496, 64497, 64498), {"as": [64496]})
        isp.revoked = [7]
        isp.publish()
        return made, apart

    first, second, third = (world.HOST.decode() + f"isp/{name}" for name in ("a.roa", "b.roa", "c.asa"))
    origin, other = "roa AS64496 192.0.2.0/24 26", "roa AS64499 192.0.2.0/25 25"
    customer, line = "aspa AS64496 AS64497 AS64498", f"refused {second} object"

    made, _ = repository()
    yield made.bundle().hex(), told([origin, other, customer], [first, second, third], [])
    made, _ = repository(serial=7)
    yield made.bundle().hex(), told([origin, customer, line], [first, third], [(second, "certificate of the object: revoked")])
    # Another key signed its certificate, and the bundle has no verdict that says so of the issuer's.
    made, _ = repository(signer=3)
    yield made.bundle().hex(), told([origin, customer, line], [first, third], [(second, "certificate of the object: bad signature")])
    # The bundle lacks a verdict: its lines go by those that it has, and the judge by the program's own.
    made, apart = repository()
    made.verdicts = [row for row in made.verdicts if row not in apart]
    yield made.bundle().hex(), told([origin, customer, line], [first, second, third], [])
    yield "00", "refused: not a bundle"


def main():
    written = {
        "example_codec": codec(),
        "example_resources": resources(),
        "example_certificate": certificates(),
        "example_checklist": checklists(),
        "example_validator": validators(),
    }
    for name, rows in written.items():
        rows = list(rows)
        for file, at in (("stdin", 0), ("stdout", 1)):
            (CRATES / name / file).write_text("".join(row[at] + "\n" for row in rows))


main()
