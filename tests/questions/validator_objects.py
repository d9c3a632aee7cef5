"""Questions about validated objects, for tests/questions/rpki_places.py: one trust anchor, and objects below it that have defects.

What is answered follows from the defects by the order of the tests (RFC 6487 4 and 7.2, RFC 6488 3, RFC 9582 5, the ASPA draft
4): the first that fails. The signer is that of rpki_repositories.py, whose good signatures stand in the table of a bundle, and
the digests are those of FIPS 180-4.
"""

import hashlib
import itertools

import rpki_repositories as world
from certificates_parts import TEXTS
from rpki_repositories import RSA, SHA256, bits, integer, oid, seq, tlv

EARLY, LATE = b"20231231235959Z", b"20260101000001Z"
ANCHOR_KEY, OTHER_KEY, KEY = 1, 2, 9
HELD = {"ipv4": ["192.0.2.0/24", "198.51.100.0/24"], "ipv6": ["2001:db8::/32"], "as": [(64496, 64511)]}
MAKER = world.World()
ISSUER = MAKER.anchor(ANCHOR_KEY, HELD, locator=None)


# Defects: what each changes of an object or of a question, in the order of the tests that they fail.


class Defect:
    """Some parts that are others, and the error's text; `asked` is how often the verifier is asked up to there."""

    def __init__(self, text, asked, **parts):
        self.text, self.asked, self.parts = text, asked, parts

    def answer(self):
        return f"refused: {self.text} asked {self.asked}"


def name(kind, tag, text):
    return seq(tlv(0x31, seq(oid(kind), tlv(tag, text))))


COMMON_NAME = "2.5.4.3"
OTHER = "1.2.840.113549.1.9.16.1.35"
CONTENTS = {
    "roa": (world.ROA, world.roa(64496, "192.0.2.0/24-25"), {"ipv4": ["192.0.2.0/24"]}),
    "aspa": (world.ASPA, world.aspa(64496, 64497, 64499), {"as": [64496]}),
    "manifest": (world.MANIFEST, world.manifest(7, (world.FIRST, world.LAST), [(b"a.roa", bytes(32))]), world.INHERITS),
    "object": (OTHER, b"any content", {"ipv6": ["2001:db8::/48"]}),
}
FORM = [
    Defect(TEXTS["AlgorithmMismatch"], 0, outer=seq(oid("1.2.840.113549.1.1.11"))),
    Defect(TEXTS["BadIssuer"], 0, issuer=name(COMMON_NAME, 0x16, b"a")),
    Defect(TEXTS["BadSubject"], 0, subject=name("2.5.4.10", 0x13, b"a")),
    Defect(TEXTS["KeyIdMismatch"], 0, identifier=bytes(20)),
    Defect(TEXTS["ExtendedKeyUsagePresent"], 0, purposes=world.extension("2.5.29.37", seq(oid("1.3.6.1.5.5.7.3.30")))),
    Defect(TEXTS["CrlMissing"], 0, crl=b""),
    Defect(TEXTS["BasicConstraintsPresent"], 0, basic=world.basic(False)),
    Defect(TEXTS["WrongKeyUsage"], 0, usage=world.usage(True)),
]
PLACE = [Defect(TEXTS["SignedObjectMissing"], 0, place=b"")]
SOUND = [
    Defect("message digest of another content", 0, digest=hashlib.sha256(b"other").digest()),
    Defect("signed after the certificate expired", 0, signing_time=LATE),
    Defect("bad signature", 1, content_key=OTHER_KEY),
]
ISSUED = [
    Defect("not yet valid", 1, moment=EARLY),
    Defect("expired", 1, moment=LATE),
    Defect("missing authority key identifier", 1, authority=None),
    Defect("authority key identifier of another key", 1, authority=OTHER_KEY),
    Defect("missing URI of the issuer", 1, issuer_uri=b""),
    Defect("bad signature", 2, cert_key=OTHER_KEY),
    Defect("overclaimed IPv4 resources: 203.0.113.0/24", 2, claims={"ipv4": ["192.0.2.0/24", "203.0.113.0/24"], "as": [1]}),
    Defect("overclaimed IPv6 resources: 2001:db9::/32", 2, claims={"ipv6": ["2001:db8::/31"], "as": [1]}),
    Defect("overclaimed AS resources: AS64495, AS64512-AS64600", 2, claims={"as": [(64495, 64600)]}),
]
TESTED = [
    Defect("refused by the caller", 2, test="refuses"),
    Defect("out of memory", 2, test="memory"),
]
UNCOVERED = {
    "roa": [
        Defect("uncovered resources", 2, content=world.roa(64496, "192.0.2.0/23")),
        Defect("uncovered resources", 2, content=world.roa(64496, "192.0.2.0/24", "2001:db8::/32")),
        Defect("uncovered resources", 2, claims={"ipv4": ["192.0.2.0/25"]}),
        Defect("uncovered resources", 2, claims={"ipv6": ["2001:db8::/32"], "as": "inherit"}),
        Defect("uncovered resources", 2, claims={"ipv4": ["192.0.2.128/25", "203.0.113.0/24"]}, trims=True),
    ],
    "aspa": [
        Defect("uncovered resources", 2, content=world.aspa(64495, 64497)),
        Defect("uncovered resources", 2, claims={"as": [64497]}),
        Defect("uncovered resources", 2, claims={"ipv4": "inherit"}),
    ],
}


class Made:
    """A signed object of a kind: parts by their names are others."""

    def __init__(self, what, **new):
        self.kind, content, claims = CONTENTS[what]
        self.new, self.maker = new, world.World()
        self.maker.objects, self.maker.verdicts = dict(MAKER.objects), list(MAKER.verdicts)
        self.content, self.claims = self.part("content", content), self.part("claims", claims)
        self.trims = self.part("trims", False)

    def part(self, name, usual):
        return self.new.get(name, usual)

    def cert(self):
        identifier = self.part("identifier", self.maker.identifier(KEY))
        authority = self.part("authority", ANCHOR_KEY)
        extensions = [
            self.part("basic", b""),
            world.extension("2.5.29.14", tlv(4, identifier)),
            b"" if authority is None else self.maker.authority_key(authority),
            self.part("usage", world.usage(False)),
            self.part("purposes", b""),
            self.part("crl", world.crl_point(ISSUER.crl)),
            self.part("issuer_uri", world.issuer_at(ISSUER.at)),
            self.part("place", world.access((11, ISSUER.folder + b"a.roa"))),
            world.policies(self.trims),
            *world.claims_of(self.claims, self.trims),
        ]
        tbs = seq(
            tlv(0xA0, integer(2)),
            integer(11),
            world.ALGORITHM,
            self.part("issuer", self.maker.name(ANCHOR_KEY)),
            seq(*map(world.time, (world.FIRST, world.LAST))),
            self.part("subject", self.maker.name(KEY)),
            world.encoded(KEY),
            tlv(0xA3, seq(*extensions)),
        )
        signature = self.maker.sign(self.part("cert_key", ANCHOR_KEY), tbs)
        return seq(tbs, self.part("outer", world.ALGORITHM), bits(signature))

    def attributes(self):
        digest = self.part("digest", hashlib.sha256(self.content).digest())
        yield seq(oid("1.2.840.113549.1.9.3"), tlv(0x31, oid(self.kind)))
        yield seq(oid("1.2.840.113549.1.9.4"), tlv(0x31, tlv(4, digest)))
        if "signing_time" in self.new:
            yield seq(oid("1.2.840.113549.1.9.5"), tlv(0x31, world.time(self.new["signing_time"])))

    def octets(self):
        """In DER, or in BER: of indefinite length outside, and the content in three pieces."""
        outside = opened if self.part("opened", False) else tlv
        message = tlv(0x31, *self.attributes())
        signature = self.maker.sign(self.part("content_key", KEY), message)
        sid = tlv(0x80, self.part("identifier", self.maker.identifier(KEY)))
        signer = seq(integer(3), sid, SHA256, b"\xa0" + message[1:], RSA, tlv(4, signature))
        pieces = [tlv(4, self.content[:3]), tlv(4), tlv(4, self.content[3:])]
        content = opened(0x24, *pieces) if self.part("opened", False) else tlv(4, self.content)
        info = outside(0x30, oid(self.kind), outside(0xA0, content))
        data = outside(0x30, integer(3), tlv(0x31, SHA256), info, tlv(0xA0, self.cert()), tlv(0x31, signer))
        return outside(0x30, oid("1.2.840.113549.1.7.2"), outside(0xA0, data))


def opened(tag, *parts):
    """A value of indefinite length (X.690 8.1.3.6)."""
    return bytes([tag, 0x80]) + b"".join(parts) + b"\0\0"


# Questions.

CALLS = {"roa": ["process"], "aspa": ["process"], "manifest": ["validate"], "object": ["validate", "detached", "process"]}
HOLDS = {
    "roa": "holds [192.0.2.0/24] [] [] by t 192.0.2.0/24-25=AS64496",
    "aspa": "holds [] [] [AS64496] by t AS64496 AS64497 AS64499",
    "manifest": "holds [192.0.2.0/24, 198.51.100.0/24] [2001:db8::/32] [AS64496-AS64511] by t 1 files",
    "object": "holds [] [2001:db8::/48] [] by t",
}


def accepted(what, call, holds=None):
    content = " " + CONTENTS["object"][1].hex() if call == "process" and what == "object" else ""
    return f"{holds or HOLDS[what] + content} asked 2"


class Questions:
    """Each is asked at a moment that is given; those with `both`, or all of them, by a clock, too."""

    def __init__(self, ask, whole):
        self.ask, self.whole = ask, whole

    def one(self, answer, what, call, how="strict", both=False, **parts):
        for clock in ("", "-clock") if both or self.whole else ("",):
            made = Made(what, **parts)
            octets = made.octets()
            moment, test = parts.get("moment", world.MOMENT), parts.get("test", "passes")
            words = (call + clock, how, moment.decode(), test, ISSUER.at.decode(), made.maker.bundle().hex(), octets.hex())
            self.ask(answer, what, *words)

    def by_form(self, what, call):
        """What is good, and what is read in BER alone."""
        for both, parts in (
            (True, {}),
            (True, {"moment": world.FIRST}),
            (False, {"moment": world.LAST}),
            (False, {"signing_time": EARLY}),
            (False, {"signing_time": world.LAST}),
        ):
            self.one(accepted(what, call), what, call, both=both, **parts)
        self.one(accepted(what, call), what, call, "relaxed", opened=True)
        self.one("unreadable asked 0", what, call, opened=True)
        utf8 = {"subject": name(COMMON_NAME, 0x0C, b"a")}
        self.one(accepted(what, call), what, call, "relaxed", **utf8)
        self.one(FORM[2].answer(), what, call, **utf8)

    def one_by_one(self, what, call):
        for defect in defects_of(what, call):
            self.one(defect.answer(), what, call, both="moment" in defect.parts or "test" in defect.parts, **defect.parts)

    def by_pairs(self, what, call):
        """Of two defects of different parts the first is reported: of two that are neighbours, or of any two."""
        defects = defects_of(what, call)
        pairs = itertools.combinations(defects, 2) if self.whole else neighbours(defects)
        for first, second in pairs:
            if not first.parts.keys() & second.parts.keys():
                self.one(first.answer(), what, call, **first.parts, **second.parts)


def neighbours(defects):
    """Each defect with the next one that is of other parts."""
    for at, first in enumerate(defects):
        following = (second for second in defects[at + 1 :] if not first.parts.keys() & second.parts.keys())
        second = next(following, None)
        if second:
            yield first, second


def defects_of(what, call):
    """The defects that a call looks for, in the order of the tests."""
    own = FORM + ([] if call == "detached" else PLACE) + SOUND + ISSUED
    uncovered = UNCOVERED.get(what, [])
    if call != "process":
        return own
    return own + (uncovered + TESTED if what == "aspa" else TESTED + uncovered)


def soundness(ask):
    """Whether an object of each kind is sound, whatever its certificate is."""
    for what in CONTENTS:
        cases = [("sound", 1, {}), *((f"unsound: {d.text}", d.asked, d.parts) for d in SOUND)]
        cases += [("sound", 1, d.parts) for d in (FORM[1], ISSUED[2])]
        for answer, asked, parts in cases:
            made = Made(what, **parts)
            octets = made.octets()
            ask(f"{answer} asked {asked}", "sound", "strict", made.maker.bundle().hex(), octets.hex(), what)
    made = Made("object", opened=True)
    octets = made.octets()
    for what in ("object", "manifest"):
        for how in ("relaxed", "strict"):
            answer = "sound asked 1" if (what, how) == ("object", "relaxed") else "unreadable asked 0"
            ask(answer, "sound", how, made.maker.bundle().hex(), octets.hex(), what)


def types(ask):
    """Objects that are read only where their content is of a type."""
    for what, (kind, content, _) in CONTENTS.items():
        octets = Made(what).octets()
        for other in sorted({world.ROA, world.ASPA, world.MANIFEST, OTHER, "1.2.840.113549.1.9.16.1", kind + ".0"}):
            ask(content.hex() if other == kind else "refused", "typed", "strict", oid(other)[2:].hex(), octets.hex())
        opened_octets = Made(what, opened=True).octets()
        for how, answer in (("relaxed", content.hex()), ("strict", "refused")):
            ask(answer, "typed", how, oid(kind)[2:].hex(), opened_octets.hex())
        ask("refused", "typed", "strict", oid(kind)[2:].hex(), octets[:-1].hex())
        ask(content.hex(), "typed", "strict", oid(kind)[2:].hex(), octets.hex() + "00")


def objects(ask, whole=False):
    """All questions about objects; `whole` asks about all pairs of defects, and each by a clock, too."""
    questions = Questions(ask, whole)
    for what, calls in CALLS.items():
        for call in calls:
            questions.by_form(what, call)
            questions.one_by_one(what, call)
    questions.by_pairs("roa", "process")
    questions.by_pairs("aspa", "process")
    # without a place only what stands apart is accepted, and what is trimmed is held where the issuer holds it
    questions.one(accepted("object", "detached"), "object", "detached", place=b"")
    trimmed = {"claims": {"ipv4": ["192.0.2.0/23"], "as": [(1, 64496)]}, "trims": True}
    holds = "holds [192.0.2.0/24] [] [AS64496] by t 192.0.2.0/24-25=AS64496"
    questions.one(accepted("roa", "process", holds), "roa", "process", **trimmed)
    soundness(ask)
    types(ask)
