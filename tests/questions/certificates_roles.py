#!/usr/bin/env python3
"""Questions about certificates in their roles, and about certificates that are built, for tests/questions/certificates.py.

    certificates_roles.py --all PROGRAM     asks these alone

A certificate is made of named parts (certificates_parts.py), of which one or two are then others. What must be told of it is
known from the parts; which test fails first, from the order of tests that the profile's reader documents: this script reads no
certificate. Those about built ones come from certificates_built.py.
"""

import datetime
import itertools
import pathlib
import sys

sys.dont_write_bytecode = True
sys.path.insert(0, str(pathlib.Path(__file__).resolve().parents[1] / "lib"))

import asking  # noqa: E402
import rpki_repositories as world  # noqa: E402
from certificates_built import built  # noqa: E402
from certificates_parts import ALL, APART, FAILS, FIRST, HOST, LAST, MOMENT, OTHER_KEY, ROUTER, RSA, SIGN_BARE, TESTS, TEXTS  # noqa: E402
from certificates_parts import claims, made, name, places, sets  # noqa: E402
from rpki_repositories import NULL, bits, integer, oid, seq, tlv  # noqa: E402


def copy_told(parts):
    return f"{parts.whole()} x{parts.octets()}"


# Inspection: the tests of each role in their order.


def inspections(q):
    for role, tests in TESTS.items():
        for strict in ("strict", "relaxed"):
            q.ask("ok", "inspect", role, strict, made(role).octets())
        for test in tests:
            q.ask(test, "inspect", role, "strict", made(role, FAILS[test]).octets())
            q.ask(test, "inspect", role, "relaxed", made(role, FAILS[test]).octets())
            q.ask(TEXTS[test], "inspect", role, "strict", made(role, FAILS[test]).octets(), "text")
        pairs = [pair for pair in itertools.combinations(tests, 2) if set(pair) not in APART]
        for one, other in pairs:
            q.ask(one, "inspect", role, "relaxed", made(role, FAILS[one], FAILS[other]).octets())
        for another in TESTS:
            if another != role:
                test = first_failing(role, another)
                q.ask(test, "inspect", another, "relaxed", made(role).octets())
        names(q, role)


def first_failing(role, asked):
    """The first test of the asked role that a good certificate of this one fails."""
    if "router" in (role, asked):
        return "KeyAlgorithm"
    return {
        ("ta", "ca"): "CrlMissing",
        ("ta", "ee"): "CrlMissing",
        ("ta", "detached"): "CrlMissing",
        ("ca", "ta"): "AuthorityKeyMismatch",
        ("ca", "ee"): "BasicConstraintsPresent",
        ("ca", "detached"): "BasicConstraintsPresent",
        ("ee", "ta"): "BasicConstraintsMissing",
        ("ee", "ca"): "BasicConstraintsMissing",
        ("ee", "detached"): "ok",
        ("detached", "ta"): "BasicConstraintsMissing",
        ("detached", "ca"): "BasicConstraintsMissing",
        ("detached", "ee"): "SignedObjectMissing",
    }[role, asked]


def names(q, role):
    """Names that are of the profile, those that only relaxed inspection takes, and others (RFC 6487 4.4, RFC 8209 3.1.1)."""
    common = seq(oid("2.5.4.3"), tlv(0x13, b"one"))
    number = seq(oid("2.5.4.5"), tlv(0x13, b"7"))
    rows = {
        "good": [seq(tlv(0x31, common), tlv(0x31, number)), seq(tlv(0x31, number), tlv(0x31, common)), seq(tlv(0x31, common, number))],
        "relaxed": [name(b"one", 0x0C), seq(tlv(0x31, common), tlv(0x31, seq(oid("2.5.4.5"), tlv(0x0C, b"7"))))],
        "bad": [
            *(seq(), seq(tlv(0x31, number)), seq(tlv(0x31, common), tlv(0x31, common))),
            *(seq(tlv(0x31, common), tlv(0x31, number), tlv(0x31, number)), seq(tlv(0x31, common), tlv(0x31, seq(oid("2.5.4.6"), tlv(0x13, b"NL"))))),
            *(name(b"one", 0x16), name(b"one", 0x1E), name(b"on\x01", 0x13), name(b"a@b", 0x13)),
        ],
    }
    for how, listed in rows.items():
        for (number, octets), strict in itertools.product(enumerate(listed), ("strict", "relaxed")):
            is_good = how == "good" or how == "relaxed" and strict == "relaxed"
            answer = "ok" if is_good else "BadIssuer"
            q.ask(answer, "inspect", role, strict, made(role, sets(issuer=octets)).octets())
            is_good = is_good or how == "relaxed" and role == "router"
            answer = "ok" if is_good else "BadSubject"
            q.ask(answer, "inspect", role, strict, made(role, sets(subject=octets)).octets())


# Reading: what is told of each field, and the first fault of a list of extensions.


def swaps(change):
    """Another list of extensions."""
    return sets(swap=change)


def critical(octets):
    """The extension with its criticality turned."""
    kind, rest = cut(octets[header(octets) :])
    is_critical = rest[:3] == b"\x01\x01\xff"
    return seq(kind, rest[3:] if is_critical else b"\x01\x01\xff" + rest)


def header(octets):
    return 2 if octets[1] < 128 else 2 + octets[1] - 128


def cut(octets):
    """The value in front, and what stands after it."""
    size = octets[1] if octets[1] < 128 else int.from_bytes(octets[2 : header(octets)], "big")
    end = header(octets) + size
    return octets[:end], octets[end:]


def revalued(change):
    """The extension with another value."""

    def changed(octets):
        kind, rest = cut(octets[header(octets) :])
        front, value = (rest[:3], rest[3:]) if rest[0] == 1 else (b"", rest)
        return seq(kind, front, tlv(4, change(value[header(value) :])))

    return changed


def at(kind, change):
    """The list with the extensions of that name changed, each to a list."""
    return lambda listed: [(name, octets) for name, old in listed for octets in (change(old) if name == kind else [old])]


# What is missed where an extension isn't there, and how the certificate else tells that.
LEFT_OUT = {
    "basic": sets(basic=None),
    "subject key": "no subject key identifier",
    "authority key": sets(authority_key=None),
    "usage": "no key usage",
    "purposes": sets(purposes=None),
    "crl": sets(crl=None),
    "aia": sets(aia=None),
    "places": sets(places={}),
    "policy": "no certificate policy",
    "addresses": claims(ipv4=None, ipv6=None),
    "numbers": claims(**{"as": None}),
}


def whole(role):
    """A certificate that has each extension."""
    parts = made(role, sets(purposes=[ROUTER], crl=f"{HOST}/list.crl", aia="rsync://example.com/m/above.cer"))
    parts.places = {"repository": HOST, "manifest": f"{HOST}/mft.mft", "object": f"{HOST}/object.roa", "notify": "https://example.com/n.xml"}
    return parts


def reads(q, parts, fault=None):
    q.ask(f"refused: {fault}" if fault else parts.whole(), "read", "told", parts.octets())


# Faults of one extension of a list: how, what it becomes, and the fault that is told.
FAULTS = [
    ("doubled", lambda octets: [octets, octets], "duplicate extension"),
    ("criticality", lambda octets: [critical(octets)], "criticality of an extension"),
    ("cut", lambda octets: [revalued(lambda value: value[:-1])(octets)], "invalid value of an extension"),
    ("empty", lambda octets: [revalued(lambda value: b"")(octets)], "invalid value of an extension"),
    ("after another", lambda octets: [revalued(lambda value: NULL + value)(octets)], "invalid value of an extension"),
    # What stands after the value isn't read.
    ("followed", lambda octets: [revalued(lambda value: value + NULL)(octets)], None),
    ("after unknown critical", lambda octets: [unknown(True), octets], "unknown critical extension"),
    ("after unknown", lambda octets: [unknown(False, b"\xff\xff"), octets], None),
]


def faults(q):
    for role in TESTS:
        reads(q, made(role))
        reads(q, whole(role))
    for kind, _ in whole("ca").extensions():
        left, missing = whole("ca"), LEFT_OUT[kind]
        if isinstance(missing, str):
            left.swap = at(kind, lambda octets: [])
            reads(q, left, missing)
        else:
            missing(left)
            reads(q, left)
        for how, change, fault in FAULTS:
            # Resources may be critical or not (RFC 8360 4.2 in the place of RFC 6487 4.8.10).
            fault = None if how == "criticality" and kind in ("addresses", "numbers") else fault
            reads(q, made_whole(at(kind, change)), fault)
    for first, second in itertools.permutations(("doubled", "criticality", "cut", "after unknown critical"), 2):
        order(q, first, second)
    reads(q, made_whole(lambda listed: listed[::-1]))
    reads(q, made_whole(lambda listed: listed[3:] + listed[:3]))


def made_whole(swap):
    parts = whole("ca")
    parts.swap = swap
    return parts


def unknown(is_critical, value=b"\x05\x00"):
    return world.extension("1.2.3.4", value, is_critical)


def order(q, first, second):
    """Two faults: the first in the list is told."""
    changes = {how: (change, fault) for how, change, fault in FAULTS}
    swap = lambda listed: at("usage", changes[second][0])(at("subject key", changes[first][0])(listed))
    reads(q, made_whole(swap), changes[first][1])


def lists(q):
    """The tests after the list, in their order: some resources, a policy, versions of both kinds, key identifier, usage."""
    drop = lambda *kinds: lambda listed: [(kind, octets) for kind, octets in listed if kind not in kinds]
    texts = [
        (("addresses", "numbers"), "no resources"),
        (("policy",), "no certificate policy"),
        (("subject key",), "no subject key identifier"),
        (("usage",), "no key usage"),
    ]
    for count in range(1, len(texts) + 1):
        for some in itertools.combinations(texts, count):
            reads(q, made_whole(drop(*(kind for kinds, _ in some for kind in kinds))), some[0][1])
    other = lambda kind: dict(made_trimmed().extensions())[kind]
    ip, asn = "IP resources under another policy", "AS resources under another policy"
    for kind, text in (("addresses", ip), ("numbers", asn)):
        reads(q, made_whole(at(kind, lambda octets: [other(kind)])), text)
        both = at(kind, lambda octets: [octets, other(kind)])
        reads(q, made_whole(both), "duplicate extension")
    both = lambda listed: at("addresses", lambda octets: [other("addresses")])(at("numbers", lambda octets: [other("numbers")])(listed))
    reads(q, made_whole(both), ip)
    reads(q, made_whole(lambda listed: drop("subject key")(both(listed))), ip)
    reads(q, made_whole(lambda listed: drop("policy")(both(listed))), "no certificate policy")
    reads(q, made_trimmed())


def made_trimmed():
    return whole_with(trims=True)


def whole_with(**parts):
    made = whole("ca")
    sets(**parts)(made)
    return made


def fields(q):
    """Fields of which one is another; the rest is told as it was."""
    for role in ("ta", "ee"):
        for serial in (0, 1, 127, 128, 2**64, 2**159 - 1):
            reads(q, made(role, sets(serial=serial)))
        for trims in (False, True):
            for items in ({"ipv4": "inherit"}, {"ipv6": "inherit", "as": "inherit"}, {"as": []}, {"ipv4": [], "ipv6": ["2001:db8::/32"]}):
                reads(q, made(role, sets(claims=items, trims=trims)))
        for validity in ((FIRST, FIRST), (LAST, FIRST), (b"19500101000000Z", b"20491231235959Z"), (b"20500101000000Z", b"99991231235959Z")):
            reads(q, made(role, sets(validity=validity)))
        reads(q, made(role, sets(inner=SIGN_BARE)))
        reads(q, made(role, sets(outer=SIGN_BARE)))
        reads(q, made(role, sets(basic=False)))
    # RFC 5280 4.2.1.9: an empty SEQUENCE says that the subject is no authority.
    assert world.basic(False).endswith(tlv(4, b"\x30\x00"))


def copies(q):
    """A copy is told as the certificate is, and is written as the same octets."""
    for role in TESTS:
        for parts in (made(role), whole(role)):
            q.ask(copy_told(parts), "read", "copy", parts.octets())
    for parts in (made_trimmed(), made("ca", sets(outer=SIGN_BARE)), made("ee", sets(inner=SIGN_BARE))):
        q.ask(copy_told(parts), "read", "copy", parts.octets())
    for parts in (made("ta"), made("ta", sets(trims=True)), issuer()):
        answer = f"{parts.held()} t x{parts.octets()} 0"
        q.ask(answer, "anchor", "copy", "strict", MOMENT.decode(), "good", parts.octets())


def within(q):
    """Certificates read in each mode, among other values, and under a tag; what is signed by itself (X.690 8.1.3.6, 8.2.2, 9.1, 10.1)."""
    good = made("ca")
    octets, signed = bytes.fromhex(good.octets()), good.signed()
    content = octets[header(octets) :]
    open_ended = lambda value: bytes([value[0], 0x80]) + value[header(value) :] + b"\0\0"
    rest = content[len(signed) :]
    # Any octet but 0 is TRUE in BER; the value of an extension is DER in each mode (RFC 5280 4.2).
    yes, other = b"\x01\x01\xff", b"\x01\x01\x01"
    criticality, value_in = made("ca"), made("ca")
    criticality.swap = at("basic", lambda value: [value.replace(yes, other, 1)])
    value_in.swap = at("basic", lambda value: [value[: -len(yes)] + other])
    assert dict(value_in.extensions())["basic"].endswith(yes)
    forms = {
        "definite": (octets, ("der", "ber")),
        "outer open": (open_ended(octets), ("ber",)),
        "inner open": (seq(open_ended(signed), rest), ("ber",)),
        "criticality": (bytes.fromhex(criticality.octets()), ("ber",)),
        "value of an extension": (bytes.fromhex(value_in.octets()), ()),
        "followed": (octets + NULL, ("der", "ber")),
        "fields after": (seq(content, NULL), ()),
        "cut": (octets[:-1], ()),
    }
    for (how, (value, modes)), mode in itertools.product(forms.items(), ("der", "ber", "cer")):
        answer = good.whole() if mode in modes else "refused"
        for call in ("taken", "next"):
            q.ask(answer, "within", call, mode, value.hex())
        if value[:1] == b"\x30":
            q.ask(answer, "within", "tagged", mode, (b"\xa1" + value[1:]).hex())
    for mode in ("der", "ber"):
        for value in (b"", NULL + octets, b"\xa1" + octets[1:]):
            q.ask("none", "within", "next", mode, value.hex())
            q.ask("refused", "within", "taken", mode, value.hex())
        q.ask("refused", "within", "next", mode, seq(NULL).hex())
        q.ask("refused", "within", "tagged", mode, octets.hex())
    for role in TESTS:
        parts = made(role)
        q.ask(parts.told(), "within", "signed", "der", parts.signed().hex())
        q.ask(parts.told(), "within", "signed", "ber", open_ended(parts.signed()).hex())
    q.ask("refused", "within", "signed", "der", open_ended(signed).hex())
    q.ask("refused", "within", "signed", "cer", signed.hex())
    q.ask("refused", "within", "signed", "der", signed[:-1].hex())


def refusals(q):
    """Certificates of which one field is left out, doubled, of another kind, or cut."""
    good = made("ca")
    parts = lambda octets: split(octets[header(octets) :])
    outer, tbs = parts(bytes.fromhex(good.octets())), parts(good.signed())

    def refuse(fields, others=outer):
        q.ask("false", "read", "tested", seq(seq(*fields), *others[1:]).hex())

    for index, field in enumerate(tbs):
        changed = lambda *parts: [*tbs[:index], *parts, *tbs[index + 1 :]]
        refuse(changed())
        refuse(changed(field, field))
        refuse(changed(bytes([field[0] ^ 0x20]) + field[1:]))
        refuse(changed(tlv(field[0], field[header(field) : -1])))
        refuse(changed(NULL))
    for version in (0, 1, 3):
        refuse([tlv(0xA0, integer(version)), *tbs[1:]])
    for serial in (tlv(2, b"\xff"), tlv(2, b"\x00\x01"), tlv(2, b"\x01" + b"\0" * 20), tlv(2)):
        refuse([tbs[0], serial, *tbs[2:]])
    for kind in ("1.2.840.113549.1.1.5", "1.2.840.113549.1.1.12", "1.2.840.10045.4.3.2"):
        refuse([*tbs[:2], seq(oid(kind), NULL), *tbs[3:]])
        refuse(tbs, [outer[0], seq(oid(kind), NULL), outer[2]])
    for time in (tlv(0x17, b"240230000000Z"), tlv(0x17, b"2401010000Z"), tlv(0x18, b"20240101000000+0000"), tlv(0x18, b"20240101000060Z")):
        refuse([*tbs[:4], seq(time, world.time(LAST)), *tbs[5:]])
        refuse([*tbs[:4], seq(world.time(FIRST), time), *tbs[5:]])
    for key in (seq(seq(oid("1.2.840.10040.4.1"), NULL), bits(b"k")), seq(RSA), seq(RSA, tlv(3)), seq(RSA, tlv(3, b"\x08k"))):
        refuse([*tbs[:6], key, *tbs[7:]])
    for others in (outer[:2], [*outer, NULL], [outer[0], outer[1], tlv(4, b"signed")]):
        refuse(tbs, others)
    q.ask("true", "read", "tested", good.octets())
    # Octets after the certificate aren't read.
    q.ask("true", "read", "tested", good.octets() + NULL.hex())
    octets = bytes.fromhex(good.octets())
    for end in range(len(octets)):
        q.ask("false", "read", "tested", octets[:end].hex())


def split(octets):
    values = []
    while octets:
        value, octets = cut(octets)
        values.append(value)
    return values


# Validation.


def later(moment, seconds):
    when = datetime.datetime.strptime(moment.decode(), "%Y%m%d%H%M%SZ") + datetime.timedelta(seconds=seconds)
    return when.strftime("%Y%m%d%H%M%SZ")


def handed(answer, parts):
    """What is told by a call that takes the certificate: by which locator it is accepted, or whose serial number is handed back."""
    said, count = answer.rsplit(" ", 1)
    return f"{said} {'t' if said.startswith('holds') else parts.serial} {count}"


ANCHOR_CALLS = ("validate_ta_at", "validate_ta", "verify_ta_at", "verify_ta")


def as_anchor(q, answer, parts, moment=MOMENT.decode(), judge="good", strict="strict", call=ANCHOR_CALLS[0]):
    q.ask(handed(answer, parts), "anchor", call, strict, moment, judge, parts.octets())


def vouched():
    """What verification says of anchors, whoever inspects: the parts, the answer, the moment, whether signatures are good. The moment is
    tested before claims, and these before the signature."""
    good = made("ta")
    for first, last in ((FIRST, LAST), (MOMENT, MOMENT)):
        parts = made("ta", sets(validity=(first, last)))
        for moment in (first, last):
            yield f"{parts.held()} 1", parts, moment.decode(), "good"
        yield "not yet valid 0", parts, later(first, -1), "good"
        yield "expired 0", parts, later(last, 1), "good"
    yield "bad signature 1", good, MOMENT.decode(), "bad"
    for kind, text in (("ipv4", "IPv4 addresses"), ("ipv6", "IPv6 addresses"), ("as", "AS numbers")):
        parts = made("ta", claims(**{kind: "inherit"}))
        yield f"inherited {text} 0", parts, MOMENT.decode(), "good"
        yield f"inherited {text} 0", parts, MOMENT.decode(), "bad"
        yield "expired 0", parts, later(LAST, 1), "good"
    three = made("ta", claims(ipv4="inherit", ipv6="inherit", **{"as": "inherit"}))
    yield "inherited IPv4 addresses 0", three, MOMENT.decode(), "good"
    yield "inherited IPv6 addresses 0", made("ta", claims(ipv6="inherit", **{"as": "inherit"})), MOMENT.decode(), "good"


def anchors(q):
    good = made("ta")
    for answer, parts, moment, judge in vouched():
        for call in ANCHOR_CALLS:
            as_anchor(q, answer, parts, moment, judge, call=call)
        said, count = answer.rsplit(" ", 1)
        for call in ("verify_ta_ref_at", "verify_ta_ref"):
            words = "strict", moment, judge, made("ta", sets(validity=(b"20000101000000Z", b"20991231235959Z"))).octets(), parts.octets()
            q.ask(f"{'ok' if said.startswith('holds') else said} {count}", "issued", "lent", call, *words)
    for test in TESTS["ta"]:
        parts = made("ta", FAILS[test])
        as_anchor(q, f"{TEXTS[test]} 0", parts, later(LAST, 1))
        # Whose form isn't asked for, that one is accepted.
        as_anchor(q, f"{TEXTS[test]} 0", parts, call="validate_ta")
        for call in ANCHOR_CALLS[2:]:
            as_anchor(q, f"{parts.held()} 1", parts, call=call)
    as_anchor(q, f"{good.held()} 1", made("ta", sets(issuer=name(b"one", 0x0C))), strict="relaxed")
    as_anchor(q, f"{TEXTS['BadIssuer']} 0", made("ta", sets(issuer=name(b"one", 0x0C))))
    # No authority key identifier, a repository with a slash at its end, other cases.
    as_anchor(q, f"{good.held()} 1", made("ta", sets(authority_key=None)))
    for repository, is_good in ((HOST + "/", True), (HOST.replace("e", "E", 1), True), (HOST[:-1] + "P", False), (HOST + "//", False)):
        answer = f"{good.held()} 1" if is_good else f"{TEXTS['ManifestNotChild']} 0"
        as_anchor(q, answer, made("ta", places(repository=repository)))


def anchor_cert(q):
    """The worked case `anchor-cert` as it is read: serial number 12, all numbers under the policy that trims."""
    good = lambda *changes: made("ta", sets(trims=True), *changes)
    reads(q, good())
    for moment in (FIRST, LAST):
        as_anchor(q, f"{good().held()} 1", good(), moment.decode())
    as_anchor(q, "not yet valid 0", good(), later(FIRST, -1))
    as_anchor(q, "expired 0", good(), later(LAST, 1))
    as_anchor(q, f"{TEXTS['ManifestNotChild']} 0", good(FAILS["ManifestNotChild"]))
    as_anchor(q, f"{TEXTS['AlgorithmMismatch']} 0", good(FAILS["AlgorithmMismatch"]))
    reads(q, good(swaps(lambda listed: [row for row in listed if row[0] != "policy"])), "no certificate policy")
    others = dict(made("ta").extensions())
    reads(q, good(swaps(at("addresses", lambda octets: [octets, others["addresses"]]))), "duplicate extension")
    reads(q, good(swaps(lambda listed: [*listed, ("unknown", unknown(False))])))
    reads(q, good(sets(basic=False)))


HELD = {"ipv4": ["10.0.0.0/8", "192.0.2.0/24"], "ipv6": ["2001:db8::/32"], "as": [(64496, 64511)]}


def issuer():
    return made("ta", sets(claims=dict(HELD)))


def child(role, *changes):
    """A good certificate below the issuer."""
    return made(role, sets(authority_key=issuer().subject_key), *changes)


# How a certificate of a role is handed over, and the call; by a clock; and the calls that don't inspect.
CALLS = {
    "ca": [("at", "validate_ca_at"), ("clock", "validate_ca"), ("verified", "verify_ca_at"), ("verified", "verify_ca")],
    "ee": [("at", "validate_ee_at"), ("clock", "validate_ee"), ("verified", "verify_ee_at"), ("verified", "verify_ee")],
    "detached": [("at", "validate_detached_ee_at"), ("clock", "validate_detached_ee")],
    "router": [("lent", call) for call in ("validate_router_at", "validate_router", "verify_router_at", "verify_router")],
}


def under(q, answer, role, parts, moment=MOMENT.decode(), judge="good", call=None):
    how, call = call or CALLS[role][0]
    answer = answer if how == "lent" else handed(answer, parts)
    words = "strict", moment, judge, issuer().octets(), parts.octets()
    q.ask(answer, "issued", how, call, *words)


def holding(v4="", v6="", numbers=""):
    return f"holds [{v4}] [{v6}] [{numbers}] 1"


def below(q):
    for role, calls in CALLS.items():

        def say(answer, *changes, moment=MOMENT.decode(), judge="good"):
            for call in calls:
                under(q, answer, role, child(role, *changes), moment, judge, call=call)

        good = "ok 1" if role == "router" else holding("10.0.0.0/8", "", "AS64496")
        say(good)
        inner = (later(FIRST, 10).encode(), later(LAST, -10).encode())
        say(good, sets(validity=inner), moment=inner[0].decode())
        say(good, sets(validity=inner), moment=inner[1].decode())
        say("not yet valid 0", sets(validity=inner), moment=later(inner[0], -1))
        say("expired 0", sets(validity=inner), moment=later(inner[1], 1))
        say("missing authority key identifier 0", sets(authority_key=None))
        say("authority key identifier of another key 0", sets(authority_key=OTHER_KEY))
        say("missing URI of the issuer 0", sets(aia=None))
        say("bad signature 1", judge="bad")
        # The first that fails: form, moment, issuer, signature, numbers.
        outside = claims(**{"as": [1]})
        say("overclaimed AS resources: AS1 1", outside)
        say("bad signature 1", outside, judge="bad")
        say("missing URI of the issuer 0", outside, sets(aia=None), judge="bad")
        say("missing authority key identifier 0", sets(aia=None, authority_key=None))
        say("expired 0", sets(validity=(FIRST, FIRST), authority_key=None))
        for test in TESTS[role]:
            parts = child(role, FAILS[test], sets(validity=(FIRST, FIRST), authority_key=None))
            for call in calls:
                inspects = call[1].startswith("validate")
                under(q, f"{TEXTS[test]} 0" if inspects else "expired 0", role, parts, call=call)
    single_tests(q)
    numbers(q)


def single_tests(q):
    """The tests by themselves: of a certificate without a form, which claims what isn't held."""
    whatever = sets(inner=SIGN_BARE), claims(**{"as": [1]})

    def say(answer, call, *changes, **how):
        under(q, answer, "ee", child("ee", *whatever, *changes), **how, call=("lent", call))

    for moment in (FIRST, LAST, MOMENT):
        say("ok 0", "verify_validity", sets(aia=None, authority_key=None), moment=moment.decode())
    say("not yet valid 0", "verify_validity", sets(validity=(LAST, LAST)), moment=later(LAST, -1))
    say("expired 0", "verify_validity", sets(validity=(FIRST, FIRST)), moment=later(FIRST, 1))
    # The beginning is looked at first.
    say("not yet valid 0", "verify_validity", sets(validity=(LAST, FIRST)))
    for judge in ("good", "bad"):
        say("ok 0", "verify_issuer_claim", sets(validity=(FIRST, FIRST), issuer=name(b"another")), judge=judge)
    say("missing authority key identifier 0", "verify_issuer_claim", sets(authority_key=None, aia=None))
    say("authority key identifier of another key 0", "verify_issuer_claim", sets(authority_key=OTHER_KEY, aia=None))
    say("missing URI of the issuer 0", "verify_issuer_claim", sets(aia=None))
    say("ok 1", "verify_signature", sets(aia=None, authority_key=None, validity=(FIRST, FIRST)))
    say("bad signature 1", "verify_signature", judge="bad")


def numbers(q):
    """The claim rule (RFC 6487 7.2, RFC 8360 4.2): missing, inherited, listed inside and outside, refused and trimmed."""
    v4, v6, asns = "10.0.0.0/8, 192.0.2.0/24", "2001:db8::/32", "AS64496-AS64511"
    for role in ("ca", "ee", "detached"):

        def say(answer, trims=False, **listed):
            for call in CALLS[role]:
                under(q, answer, role, child(role, sets(claims=listed, trims=trims)), call=call)

        say(holding(v4, v6, asns), ipv4="inherit", ipv6="inherit", **{"as": "inherit"})
        say(holding(v4), ipv4="inherit")
        say(holding(v4, v6, asns), **HELD)
        say(holding(numbers=asns), **{"as": "inherit"})
        say(holding("", "", ""), **{"as": []})
        say(holding("10.1.0.0/16, 192.0.2.0/25"), ipv4=["10.1.0.0/16", "192.0.2.0/25"])
        say(holding(v6="2001:db8:1::/48"), ipv6=["2001:db8:1::/48"])
        say(holding("10.0.0.0-10.0.0.2"), ipv4=[("10.0.0.0", "10.0.0.2")])
        say("overclaimed IPv4 resources: 11.0.0.0/8 1", ipv4=["10.0.0.0/7"])
        say("overclaimed IPv4 resources: 192.0.3.0/24 1", ipv4=["10.0.0.0/8", "192.0.2.0/23"])
        say("overclaimed IPv6 resources: 2001:db9::/32 1", ipv6=["2001:db8::/31"])
        say("overclaimed AS resources: AS64512 1", **{"as": [(64500, 64512)]})
        say("overclaimed IPv4 resources: 1.0.0.0/8 1", ipv4=["1.0.0.0/8"], ipv6=["::/0"], **{"as": [1]})
        say("overclaimed IPv6 resources: 2001:db9::/32 1", ipv4=["10.0.0.0/8"], ipv6=["2001:db8::/31"], **{"as": [1]})
        # Under the policy that trims, what isn't held is left out, to the last number.
        say(holding("10.0.0.0/8"), True, ipv4=["10.0.0.0/7"])
        say(holding("10.0.0.0/8, 192.0.2.0/24", "2001:db8::/32", "AS64500-AS64511"), True, **{**ALL, "as": [(64500, 64512)]})
        say(holding(), True, ipv4=["1.0.0.0/8"], ipv6=["::/128"], **{"as": [1, 2]})
        say(holding(v4), True, ipv4="inherit", **{"as": [1]})
    for trims in (False, True):
        outside = "ok 1" if trims else "overclaimed AS resources: AS64512 1"
        for answer, items in (("ok 1", [64496, (64500, 64511)]), (outside, [64496, 64512]), ("ok 1", [])):
            under(q, answer, "router", child("router", sets(claims={"as": items}, trims=trims)))


def roles(q):
    """Asks each question once."""
    found = asking.Questions(f"{q.member}\tcert")
    for ask in (inspections, faults, lists, fields, copies, within, refusals, anchors, anchor_cert, below, built):
        ask(found)
    rows = dict.fromkeys(found.rows)
    assert len(dict(rows)) == len(rows), "a question has two answers"
    q.rows += rows


def main():
    if len(sys.argv) != 3 or sys.argv[1] != "--all":
        sys.exit("usage: certificates_roles.py --all PROGRAM")
    q = asking.Questions("certificates")
    roles(q)
    passed, failed = asking.compare(pathlib.Path(sys.argv[2]).resolve(), q.rows)
    print(f"{passed} passed, {failed} failed")
    sys.exit(1 if failed else 0)


if __name__ == "__main__":
    main()
