"""Questions about walks, for tests/questions/validator.py: worked cases, changed ones, and what hostile publishers may do.

The bundles are made by tests/lib/rpki_repositories.py. The lines of worked cases are stated here, and those of the others are
tests/lib/rpki_model.py's; of each worked case the model has to say the stated lines, too.
"""

import base64

import rpki_model
import rpki_relaxed
from rpki_model import run_text
from rpki_repositories import FIRST, HOST, LAST, MOMENT, PKIX, Authority, Constant, Fips, World
from rpki_repositories import access, aspa, basic, bits, claims_of, crl_point, extension, integer, issuer_at, locator_text
from rpki_repositories import oid, policies, roa, seq, tlv, uri_name, usage

MANY = "4000000000"
SINGLE = ["roa AS64496 192.0.2.0/24 24"]
NO_POINT = ["refused rsync://r.example/m/ta.cer point"]
NO_ROA = ["refused rsync://r.example/m/ta/a.roa object"]
PREFIX = {"ipv4": ["192.0.2.0/24"]}
ROA_CONTENT = bytes.fromhex("3017020300FBF03010300E04020001300830060304 00C00002")
ROA_V6 = bytes.fromhex("301B020300FBF0301430120402000230 0C300A03050020010DB8020130")


def text(rows):
    return "".join(f"{row}|" for row in rows)


def single(world=None, content=ROA_CONTENT, claims=PREFIX, anchor=None, publish=True, **how):
    """The case single-roa: its world, and the anchor's authority."""
    world = world or World()
    ta = world.anchor(1, anchor or claims)
    ta.add_roa(b"a.roa", content, claims, **how)
    if publish:
        ta.publish()
    return world, ta


def trimmed(trims=True, lists=None, depth=32):
    """The case trimmed-ca."""
    world = World(depth)
    ta = world.anchor(1, {"ipv4": ["10.0.0.0/8"]})
    ca = world.authority(2, HOST + b"ca/", b"ca")
    ta.certify(b"ca.cer", ca, lists or {"ipv4": ["10.0.0.0/8", "11.0.0.0/8"]}, trims)
    ta.publish()
    ca.add_roa(b"x.roa", roa(64496, "10.1.0.0/16"), {"ipv4": ["10.1.0.0/16"]})
    ca.add_roa(b"y.roa", roa(64496, "11.1.0.0/16"), {"ipv4": ["11.1.0.0/16"]}, trims=True)
    ca.publish()
    return world


def refused_authorities():
    """An authority below the anchor, with a ROA: its certificate is revoked, or not listed, or its signature isn't known."""
    for way in ("revoked", "unlisted", "unsigned"):
        world = World()
        ta = world.anchor(1, {"ipv4": ["10.0.0.0/8"]})
        ca = world.authority(2, HOST + b"ca/", b"ca")
        known = set(world.verdicts)
        ta.certify(b"ca.cer", ca, {"ipv4": ["10.0.0.0/8"]}, serial=77)
        if way == "revoked":
            ta.revoked = [77]
        elif way == "unlisted":
            world.objects[HOST + b"ta/ca.cer"] = ta.files.pop(b"ca.cer")
        else:
            world.verdicts = type(world.verdicts)(known)
        ta.publish()
        ca.add_roa(b"x.roa", roa(64496, "10.1.0.0/16"), {"ipv4": ["10.1.0.0/16"]})
        ca.publish()
        yield world


def parents(by=("a", "b")):
    """The case two-parents; or what the chains by these parents name, and the anchor."""
    world = World()
    ta = world.anchor(1, {"ipv4": ["10.0.0.0/8"]})
    a, b = (world.authority(key, HOST + name + b"/", name) for key, name in ((2, b"a"), (3, b"b")))
    c = world.authority(4, HOST + b"c/", b"c", HOST + b"b/c.cer")
    for parent, prefix in ((a, "10.0.0.0/9"), (b, "10.128.0.0/9")):
        ta.certify(parent.name + b".cer", parent, {"ipv4": [prefix]})
        parent.certify(b"c.cer", c, {"ipv4": "inherit"})
        parent.publish()
    ta.publish()
    c.add_roa(b"c.roa", roa(64496, "10.200.0.0/16"), {"ipv4": "inherit"})
    c.publish()
    for parent in {"a", "b"} - set(by):
        for uri in [uri for uri in world.objects if uri.startswith(HOST + parent.encode() + b"/")]:
            del world.objects[uri]
    return world


def loop(depth=32, new_key=False):
    """The case loop-and-depth."""
    world = World(depth)
    ta = world.anchor(1, {"ipv4": ["10.0.0.0/8"]})
    b = world.authority(2, HOST + b"b/", b"b")
    ta.certify(b"b.cer", b, {"ipv4": "inherit"})
    ta.publish()
    name = b"c" if new_key else b"a"
    b.certify(name + b".cer", world.authority(3 if new_key else 1, HOST + name + b"/", name), {"ipv4": "inherit"})
    b.publish()
    return world


def customers():
    """The case two-aspas."""
    world = World()
    ta = world.anchor(1, {"as": [(0, 2**32 - 1)]})
    ta.add_aspa(b"a.asa", aspa(15562, 2914, 8283), {"as": [15562]})
    ta.add_aspa(b"b.asa", aspa(15562, 8283, 51088), {"as": [15562]})
    ta.publish()
    return world


def changed_roa(at):
    world, _ = single()
    octets = bytearray(world.objects[HOST + b"ta/a.roa"])
    octets[at] ^= 1
    world.objects[HOST + b"ta/a.roa"] = bytes(octets)
    return world


def revoked():
    world, ta = single(publish=False, serial=77)
    ta.revoked = [77]
    ta.publish()
    return world


def updates(manifest=(FIRST, LAST), crl=(FIRST, LAST)):
    world, ta = single(publish=False)
    ta.publish(manifest, ta.list_of_revoked(crl))
    return world


def uris(*first, held=None):
    """The case first-uri: https URIs beside the anchor's."""
    world, ta = single()
    world.locators[b"t"] = locator_text(first, ta.key)
    if held is not None:
        world.objects[held] = b"\0"
    return world


def router(octets=None):
    """The case router-cer: a listed certificate that isn't an authority's."""
    world, ta = single(publish=False)
    extensions = [*ta.below(9, False), policies(False), *claims_of({"as": [64496]})]
    ta.files[b"r.cer"] = world.cert(9, ta.key, extensions) if octets is None else octets
    ta.publish()
    return world


def listed(*more):
    world, ta = single(publish=False)
    ta.publish(listed=[(name, Fips.sha256(ta.files[b"a.roa"])) for name in more])
    return world


def overclaiming():
    world, ta = single(publish=False)
    ta.publish(claims={"ipv4": "inherit", "as": [64500]})
    return world


OTHER = b"rsync://u.example/m/"


def second():
    """The case second-locator."""
    world, ta = single()
    u = world.anchor(5, {"ipv4": ["198.51.100.0/24"]}, b"u", OTHER + b"ta.cer", OTHER + b"ta/")
    b = world.authority(6, ta.folder, b"ta", OTHER + b"ta/b.cer")
    u.certify(b"b.cer", b, {"ipv4": "inherit"})
    u.publish()
    return world


def without(world, at):
    world.verdicts = sorted(world.verdicts)
    del world.verdicts[at]
    return world


def refused_file(name, cause):
    return f"refused rsync://r.example/m/{name} {cause}"


TRIMMED = ["roa AS64496 10.1.0.0/16 16", refused_file("ca/y.roa", "object")]
PARENTS = ["roa AS64496 10.200.0.0/16 16"]


def worked_cases():
    """The worked cases of walks, with the lines that are stated for them."""
    yield "single-roa", single()[0], SINGLE
    for at in (0, 400, -1):
        yield f"changed-roa {at}", changed_roa(at), NO_POINT
    yield "revoked-roa", revoked(), NO_ROA
    yield "two-aspas", customers(), ["aspa AS15562 AS2914 AS8283 AS51088"]
    yield "two-parents", parents(), [*PARENTS, refused_file("c/c.roa", "object")]
    yield "loop-and-depth", loop(), [refused_file("b/a.cer", "loop")]
    yield "loop-and-depth, depth 2", loop(2, True), [refused_file("b/c.cer", "depth")]
    yield "depth-one", trimmed(depth=1), [refused_file("ta/ca.cer", "depth")]
    yield "depth-one, A's key", loop(2), [refused_file("b/a.cer", "loop")]
    yield "trimmed-ca", trimmed(), TRIMMED
    yield "trimmed-ca, Refuse", trimmed(False), [refused_file("ta/ca.cer", "object")]
    numbers = {"ipv4": ["10.0.0.0/8"], "as": [64500]}
    yield "judge-trim, Refuse", trimmed(False, numbers), [refused_file("ta/ca.cer", "object")]
    yield "manifest-overclaim", overclaiming(), NO_POINT
    yield "manifest-lists, a.roa twice", listed(b"a.roa"), NO_POINT
    yield "manifest-lists, z.txt", listed(b"z.txt"), NO_POINT
    yield "ipv6-roa", single(content=ROA_V6, claims={"ipv6": ["2001:db8::/32"]})[0], ["roa AS64496 2001:db8::/32 48"]
    before, after = b"20241231235959Z", b"20250101000001Z"
    for lines, times in ((SINGLE, ((FIRST, MOMENT), (MOMENT, LAST))), (NO_POINT, ((FIRST, before), (after, LAST)))):
        for pair in times:
            yield f"update-times, manifest {pair}", updates(manifest=pair), lines
            yield f"update-times, list {pair}", updates(crl=pair), lines
    at, https = HOST + b"ta.cer", b"https://r.example/ta.cer"
    yield "first-uri, held", uris(https, at, held=https), ["refused t anchor"]
    yield "first-uri, held, https second", uris(at, https, held=https), ["refused t anchor"]
    yield "first-uri, not held", uris(https, at), SINGLE
    yield "router-cer", router(), SINGLE
    yield "router-cer, unreadable", router(b"\0"), [*SINGLE, refused_file("ta/r.cer", "object")]
    yield "second-locator", second(), [*SINGLE, "refused rsync://u.example/m/ta/b.cer point"]
    for word, relaxed in (("true", True), ("false", False), ("version-0", None)):
        yield f"ber-roa--{word}", rpki_relaxed.ber_roa(relaxed), SINGLE if relaxed else NO_ROA
        yield f"ber-manifest--{word}", rpki_relaxed.ber_manifest(relaxed), SINGLE if relaxed else NO_POINT
    yield from forged()
    yield from laws()


def forged():
    """The case second-locator with each object of the second anchor's place replaced, or taken out: its own line stays."""
    kept = second()
    for uri in sorted(kept.objects):
        if not uri.startswith(OTHER + b"ta/"):
            continue
        for octets in (b"\0", kept.objects[HOST + b"ta/a.roa"], None):
            world = second()
            if octets is None:
                del world.objects[uri]
            else:
                world.objects[uri] = octets
            yield f"second-locator, {uri}", world, [*SINGLE, "refused rsync://u.example/m/ta.cer point"]


def laws():
    """The case laws: verdicts taken out, depths, a repository cut down."""
    for at in range(len(single()[0].verdicts)):
        yield f"laws, without verdict {at}", without(single()[0], at), None
    for depth in (2, 32):
        yield f"laws, depth {depth}", trimmed(depth=depth), TRIMMED
    yield "laws, cut down", parents("b"), [*PARENTS, refused_file("ta/a.cer", "point")]


# Hostile publishers.


def cycle(length, depth=32):
    """Authorities that certify each other in a ring, below an anchor."""
    world = World(depth)
    ta = world.anchor(1, {"ipv4": ["10.0.0.0/8"], "as": [(1, 100)]})
    ring = [world.authority(10 + at, HOST + b"r%d/" % at, b"r%d" % at) for at in range(length)]
    ta.certify(b"r0.cer", ring[0], {"ipv4": "inherit", "as": "inherit"})
    ta.publish()
    for at, authority in enumerate(ring):
        authority.certify(b"next.cer", ring[(at + 1) % length], {"ipv4": "inherit", "as": "inherit"})
        authority.certify(b"back.cer", ring[at - 1], {"ipv4": "inherit", "as": [(1, 100 - at)]})
        authority.certify(b"up.cer", ta, {"ipv4": "inherit"})
        authority.add_roa(b"o.roa", roa(at + 1, "10.1.0.0/16-%d" % (16 + at)), {"ipv4": "inherit"})
        authority.publish()
    return world


def others_names():
    """A manifest that lists a name which another authority published in the same folder, and one of another folder."""
    world = World()
    ta = world.anchor(1, {"ipv4": ["10.0.0.0/8"]})
    one, other = (Authority(world, key, HOST + b"ta/" + name + b".cer", HOST + b"both/", name) for key, name in ((2, b"one"), (3, b"other")))
    for authority, prefix in ((one, "10.1.0.0/16"), (other, "10.2.0.0/16")):
        ta.certify(authority.name + b".cer", authority, {"ipv4": [prefix]})
        authority.add_roa(authority.name + b".roa", roa(7, prefix), {"ipv4": [prefix]})
    ta.publish()
    one.publish()
    # (the other's list has the first one's object, of the first one's key)
    other.files[b"one.roa"] = one.files[b"one.roa"]
    other.files[b"one.crl"] = one.files[b"one.crl"]
    other.publish()
    return world


def others_place(manifest=True):
    """An authority that names another's repository, and its manifest or one of its own key there."""
    world, ta = single(publish=False, anchor={"ipv4": ["192.0.2.0/24", "10.0.0.0/8"]})
    thief = Authority(world, 3, HOST + b"ta/thief.cer", ta.folder, b"ta" if manifest else b"own")
    ta.certify(b"thief.cer", thief, {"ipv4": ["10.0.0.0/8"]})
    ta.publish()
    if not manifest:
        thief.files = dict(ta.files)
        thief.publish()
    return world


def nested(depth, tag=0x30):
    octets = b""
    for _ in range(depth):
        octets = tlv(tag, octets)
    return octets


def with_extensions(*more, drop=(), where=-1):
    """An authority below the anchor whose certificate has further extensions, or fewer, and its ROA."""
    world = World()
    ta = world.anchor(1, PREFIX)
    h = world.authority(4, HOST + b"h/", b"h")
    extensions = [*ta.below(4, True), h.access(), policies(False), *claims_of({"ipv4": "inherit"})]
    extensions = [one for at, one in enumerate(extensions) if at not in drop]
    where = len(extensions) if where < 0 else where
    ta.files[b"h.cer"] = world.cert(4, ta.key, [*extensions[:where], *more, *extensions[where:]])
    ta.publish()
    h.add_roa(b"h.roa", roa(64499, "192.0.2.128/25"), {"ipv4": "inherit"})
    h.publish()
    return world


def odd_extensions():
    """Extensions twice, deep ones, lengths past the end, others that nobody knows."""
    big = bytes.fromhex("84FFFFFFFF")
    kinds = {
        "basic": basic(), "usage": usage(True), "list": crl_point(HOST + b"ta/ta.crl"), "issuer": issuer_at(HOST + b"ta.cer"),
        "access": access((5, HOST + b"h/"), (10, HOST + b"h/h.mft")), "policies": policies(False),
        "resources": b"".join(claims_of({"ipv4": "inherit"})), "both policies": b"".join(claims_of({"ipv4": "inherit"}, True)),
        "others": extension("2.5.29.36", nested(3)), "critical others": extension("2.5.29.36", nested(3), True),
        "numbers": b"".join(claims_of({"as": [7]})), "purposes": extension("2.5.29.37", seq(oid(PKIX + "3.30"))),
    }
    for name, octets in kinds.items():
        yield f"one more: {name}", with_extensions(octets)
        yield f"two more: {name}", with_extensions(octets, octets, where=0)
    for at in range(9):
        yield f"without the extension {at}", with_extensions(drop=[at])
    deep = seq(oid(PKIX + "48.99"), nested(10_000), tlv(5))
    at = (5, HOST + b"h/"), (10, HOST + b"h/h.mft")
    entries = [seq(oid(PKIX + f"48.{method}"), uri_name(uri)) for method, uri in at]
    yield "a deep location that is skipped", with_extensions(extension(PKIX + "1.11", seq(deep, *entries)), drop=[6])
    for more in (seq(oid(PKIX + "48.99")), seq(oid(PKIX + "48.99"), tlv(0x86, b"\xff"), seq())):
        for order in ([*entries, more], [more, *entries]):
            yield "a location that is skipped", with_extensions(extension(PKIX + "1.11", seq(*order)), drop=[6])
    yield "an unknown extension that is no value", with_extensions(extension("2.5.29.99", bytes.fromhex("3084FFFFFFFF")))
    yield "a known one that is no value", with_extensions(extension(PKIX + "1.11", b"\x30" + big), drop=[6])
    yield "a deep one", with_extensions(extension("2.5.29.31", nested(10_000)), drop=[4])
    for more in (b"", b"\0", b"\xff\xff", nested(2)):
        behind = extension("2.5.29.15", tlv(3, b"\1\6") + more, True)
        yield "octets behind a value", with_extensions(behind, drop=[3])


def odd_objects():
    """Octets in the place of a file, with the manifest made anew."""
    deep = {"deep": nested(10_000), "deep contexts": nested(9_999, 0xA0), "deep and open": b"\x30\x80" * 10_000}
    lengths = {"a great length": bytes.fromhex("3084FFFFFFFF"), "a greater one": bytes.fromhex("3085FFFFFFFFFF"), "none": b"", "NULL": b"\5\0", "end": b"\0\0"}
    for name, octets in (deep | lengths).items():
        for file in (b"a.roa",) if name in deep else (b"a.roa", b"a.asa", b"a.cer", b"a.gbr", b"ta.crl"):
            world, ta = single(publish=False)
            ta.files[file] = octets
            ta.publish(crl=octets if file == b"ta.crl" else None)
            yield f"{name} as {file.decode()}", world
        for uri in () if name in deep else (HOST + b"ta.cer", HOST + b"ta/ta.mft"):
            world, _ = single()
            world.objects[uri] = octets
            yield f"{name} at {uri.decode()}", world
    for file in (b"A.ROA", b"a.CER", b"b.roa", b"b.asa", b"b.cer", b"b.ROa"):
        for source in (b"a.roa", b"ta.crl"):
            world, ta = single(publish=False)
            ta.files[b"ta.crl"] = ta.list_of_revoked()
            ta.files[file] = ta.files[source]
            ta.publish(crl=ta.files[b"ta.crl"])
            yield f"{source.decode()} as {file.decode()}", world
    for octets in (b"\0", b"\0\xff", b"x" * 300):
        world, ta = single(publish=False)
        ta.files[b"a.roa"] += octets
        ta.publish()
        yield "octets behind an object", world
        world, ta = single()
        world.objects[HOST + b"ta.cer"] += octets
        world.objects[HOST + b"ta/ta.mft"] += octets
        yield "octets behind anchor and manifest", world


def odd_signatures():
    """What is signed by another key, or claims another issuer, and objects whose parts don't fit."""
    for how in ({"signer": 9}, {"validity": (FIRST, b"20241231235959Z")}, {"validity": (b"20250101000001Z", LAST)}, {"validity": (MOMENT, MOMENT)},
                {"signing_time": LAST}, {"signing_time": b"20260101000001Z"}, {"signing_time": b"20200101000000Z"}, {"key": 1}):
        yield f"a ROA with {how}", single(**how)[0]
        world, ta = single(publish=False)
        ta.publish(**how)
        yield f"a manifest with {how}", world
    for how in ({"key": 9}, {"authority_key": 9}):
        world, ta = single(publish=False)
        ta.publish(crl=ta.list_of_revoked(**how))
        yield f"a list with {how}", world
    world, ta = single(publish=False)
    ta.revoked = [5, 2**160 - 1, 5]
    ta.publish(serial=5)
    yield "a manifest that is revoked", world
    for name, other in ((b"ta.crl", b"x.crl"), (b"a.roa", b"ta.crl")):
        world, ta = single(publish=False)
        ta.crl = HOST + b"ta/" + other
        ta.publish()
        yield f"{other.decode()} named for {name.decode()}", world
    for key in (2, 99):
        world, ta = single()
        world.locators[b"t"] = locator_text([ta.at], key)
        yield f"a locator with the key {key}", world


def locators():
    """Texts of locators, for the case single-roa."""
    at, key = HOST + b"ta.cer", 1
    plain = locator_text([at], key)
    digits = plain.split(b"\n\n")[1].strip()
    rows = [
        b"# comment\n" + plain, b"#\r\n# \xff\n" + plain, b"\n" + plain, b"# x\n\n" + plain, locator_text([at], key, b"\r\n"),
        locator_text([at, at], key), locator_text([b"RSYNC://R.Example/m/ta.cer"], key), plain.replace(at, at + b" "), plain[:-1],
        plain.replace(b"\n\n", b"\n"), plain.replace(b"\n\n", b"\n#\n\n"), plain.replace(b"\n\n", b"\n\n\n\t "), plain.replace(b"=", b""),
        plain.replace(b"==", b"= ="), plain + b"=", plain + b"x", plain + b"\x0b", plain + b"\x0c\r", digits, at + b"\n\n", at, at + b"\r\r\n\n" + digits,
        at + b"\n\n" + digits[:20] + b"\n" + digits[20:], b"ftp://x\n\n" + digits, at + b"\n\n" + digits.replace(b"M", b"_", 1), at + b"\n\nAAAA",
        locator_text([b"https://r.example"], key), locator_text([b"rsync://r.example/m"], key), b"rsync://r.example/m/ta.cer\n\r\n" + digits,
    ]
    for row in rows:
        world, _ = single()
        world.locators[b"t"] = row
        yield f"the locator {row[:40]!r}", world
    for name in (b"s", b"t.2", b"'()+,-./:=?"):
        world, _ = single()
        world.locators[name] = plain
        yield "two locators with one anchor", world
    # A key without NULL is the same key.
    world, _ = single()
    bare = seq(seq(oid("1.2.840.113549.1.1.1")), bits((1).to_bytes(8, "big")))
    world.locators[b"t"] = plain.replace(digits, base64.b64encode(bare))
    yield "a key without NULL", world


def claims():
    """Claims of an authority under each policy, and of a ROA below it."""
    lists = [
        {"ipv4": ["10.0.0.0/9"]}, {"ipv4": ["10.0.0.0/8", "11.0.0.0/8"]}, {"ipv4": "inherit"}, {"as": [64496]}, {"ipv4": []}, {"ipv4": ["0.0.0.0/0"]},
        {"ipv4": [("10.0.0.0", "10.255.255.255"), "10.1.0.0/16"]}, {"ipv4": [("9.255.255.255", "10.2.3.4")]}, {"ipv4": ["10.128.0.0/9"], "as": "inherit"},
        {"ipv4": [("10.1.0.0", "10.1.127.255"), ("10.1.128.0", "10.1.255.255")]}, {"ipv6": "inherit", "ipv4": "inherit"},
    ]
    for some in lists:
        for trims in (False, True):
            for below in ({"ipv4": "inherit"}, {"ipv4": ["10.1.0.0/16" if trims else "10.1.0.0/17"]}):
                world = World()
                ta = world.anchor(1, {"ipv4": ["10.0.0.0/8"], "ipv6": ["::/0"], "as": [(64496, 64511)]})
                ca = world.authority(2, HOST + b"ca/", b"ca")
                ta.certify(b"ca.cer", ca, some, trims)
                ta.publish()
                ca.add_roa(b"x.roa", roa(64496, "10.1.0.0/16-20"), below, trims=trims)
                ca.publish()
                yield f"{some} {trims} {below}", world


def payloads():
    """Objects of many lines, of both families, of several authorities."""
    world = World()
    ta = world.anchor(1, {"ipv4": ["0.0.0.0/0"], "ipv6": ["::/0"], "as": [(0, 2**32 - 1)]})
    ta.add_roa(b"a.roa", roa(4294967295, "0.0.0.0/0", "255.255.255.255/32", "10.0.0.0/8-32", "10.0.0.0/8-8", "10.0.0.0/9"), {"ipv4": "inherit"})
    ta.add_roa(b"b.roa", roa(0, "::/0-128", "::/128", "::ffff:10.0.0.0/120", "2001:db8::/32-48", "fe80:0:0:1::/64", "1:0:0:2:0:0:0:0/128", "0:1::/32"), {"ipv6": "inherit"})
    ta.add_roa(b"c.roa", roa(64496, "192.0.2.0/24-24", "192.0.2.0/24", "2001:db8::/32"), {"ipv4": "inherit", "ipv6": "inherit"})
    ta.add_roa(b"d.roa", roa(64497, "192.0.2.0/24-24", "10.0.0.0/8-32"), {"ipv4": "inherit"})
    ta.add_roa(b"e.roa", seq(integer(1), seq(seq(tlv(4, b"\0\1"), seq()))), {"ipv4": "inherit"})
    ta.add_aspa(b"a.asa", aspa(1, 0), {"as": "inherit"})
    ta.add_aspa(b"b.asa", aspa(1, 2, 3), {"as": "inherit"})
    ta.add_aspa(b"c.asa", aspa(4294967295, *range(1, 400)), {"as": [4294967295]})
    ta.add_aspa(b"d.asa", aspa(10, 9), {"as": [11]})
    ta.add_aspa(b"e.asa", aspa(10, 9, 9), {"as": [10]})
    ta.publish()
    yield "many payloads", world


def remade():
    """The case single-roa with an octet of the ROA flipped, and the manifest made anew."""
    size = len(single()[1].files[b"a.roa"])
    for at in range(0, size, 37):
        world, ta = single(publish=False)
        octets = bytearray(ta.files[b"a.roa"])
        octets[at] ^= 1
        ta.files[b"a.roa"] = bytes(octets)
        ta.publish()
        yield f"the ROA's octet {at} flipped", world


def hostile():
    for length, depth in ((1, 1), (1, 2), (1, 32), (2, 2), (2, 32), (3, 2), (3, 4), (3, 32), (5, 4), (5, 32)):
        yield f"a ring of {length}, depth {depth}", cycle(length, depth)
    yield "others' names", others_names()
    yield "another's place", others_place()
    yield "another's place with a manifest", others_place(False)
    for part in (odd_extensions, odd_objects, odd_signatures, locators, claims, payloads, remade):
        yield from part()


# Questions.


def outcome(octets, digests=Fips):
    """What a run writes of octets, or why it ends."""
    found = rpki_model.answer(octets, digests)
    return "not a bundle " if found is None else "ok " + text(found)


def in_a_row(outcomes):
    """Outcomes in their order; of equal ones in a row their number."""
    rows = []
    for said in outcomes:
        if rows and rows[-1][1] == said:
            rows[-1][0] += 1
        else:
            rows.append([1, said])
    return " ".join(f"{count}*{said}" for count, said in rows)


def flips(q, octets, word, digests):
    """Each octet in turn with its lowest bit flipped."""
    changed = (octets[:at] + bytes([octets[at] ^ 1]) + octets[at + 1 :] for at in range(len(octets)))
    q.ask(in_a_row(outcome(one, digests) for one in changed), "flips", word, octets.hex())


def constant(q):
    """The case constant-digest: one verdict, and digests that are the same for all octets."""
    world, _ = single(World(digests=Constant))
    assert len(world.verdicts) == 1
    octets = world.bundle()
    assert outcome(octets, Constant) == "ok " + text(SINGLE)
    q.ask("ok " + text(SINGLE), "walk", "constant", octets.hex())
    q.ask(outcome(octets), "walk", "fips", octets.hex())
    uri = HOST + b"ta/a.roa"
    world.objects[uri] = world.objects[uri].replace(b"\2\3\0\xfb\xf0", b"\2\3\0\xfb\xf1", 1)
    q.ask("ok roa AS64497 192.0.2.0/24 24|", "walk", "constant", world.bundle().hex())
    flips(q, octets, "constant", Constant)


def reach_text(reached):
    if reached is None:
        return "locator"
    asn, ipv4, ipv6 = (", ".join(run_text(kind, *run) for run in reached[kind]) for kind in ("as", "ipv4", "ipv6"))
    return f"asn: '{asn}', ipv4: '{ipv4}', ipv6: '{ipv6}'"


def naming_text(found, uris):
    return " ".join(" ".join(part.decode() for part in (b"chain", locator, *chain)) for locator, chain in found.naming(uris))


def reaches(q, world, uris, stated=None):
    """Asks what URIs reach, and which chains name one of them."""
    octets = world.bundle()
    found = rpki_model.walk(octets)
    said = reach_text(found.reach(uris))
    assert stated is None or said == f"asn: '', ipv4: '{stated}', ipv6: ''" or said == stated, (uris, said)
    for topic, text in (("reach", said), ("naming", naming_text(found, uris))):
        q.ask(text, topic, b",".join(uris).decode(), octets.hex())


def judges(q, world, locator, chain, file, stated=None):
    """Asks of a chain of files below HOST, and a file there."""
    octets = world.bundle()
    chain, file = [HOST + uri for uri in chain], HOST + file
    found = rpki_model.walk(octets)
    word = "yes" if (locator, tuple(chain), file) in found.witnesses else "no"
    said = f"{word} {found.points_read(chain, file)}"
    assert word == "no" or said == f"yes {len(chain)}", (chain, file, said)
    assert stated is None or said == stated, (chain, file, said)
    q.ask(said, "judge", locator.decode(), b",".join(chain).decode(), file.decode(), octets.hex())


def siblings():
    """The case single-roa beside twenty authorities below the same anchor."""
    world, ta = single(publish=False)
    for at in range(20):
        sibling = world.authority(100 + at, HOST + b"s%d/" % at, b"s%d" % at)
        ta.certify(b"s%d.cer" % at, sibling, PREFIX)
        sibling.add_roa(b"s.roa", ROA_CONTENT, PREFIX)
        sibling.publish()
    ta.publish()
    return world


def judge_and_reach(q):
    """The cases judge-and-reach, judge-trim and judge-asks; of manifest-overclaim and laws what is judged."""
    (world, _), a, ta = single(), b"ta/a.roa", [b"ta.cer"]
    judges(q, world, b"t", ta, a, "yes 1")
    for locator, chain, file, points in (
        (b"u", ta, a, 1), (b"t", ta * 2, a, 0), (b"t", [b"TA.cer"], a, 0), (b"t", ta, b"ta/ta.crl", 1), (b"t", ta, b"ta/none.roa", 1), (b"t", [b"ta/a.roa"], a, 0)
    ):
        judges(q, world, locator, chain, file, f"no {points}")
    for at in range(6):
        judges(q, without(single()[0], at), b"t", ta, a)
    judges(q, overclaiming(), b"t", ta, a, "no 1")
    judges(q, siblings(), b"t", ta, a, "yes 1")
    judges(q, trimmed(), b"t", [b"ta.cer", b"ta/ca.cer"], b"ca/x.roa", "yes 2")
    judges(q, trimmed(), b"t", [b"ta.cer", b"ta/ca.cer"], b"ca/y.roa", "no 2")
    judges(q, trimmed(False, {"ipv4": ["10.0.0.0/8"], "as": [64500]}), b"t", [b"ta.cer", b"ta/ca.cer"], b"ca/x.roa", "no 2")
    # The authority's certificate isn't sound at the anchor's point, which is read: it is revoked, not listed, or not signed.
    for refused in refused_authorities():
        judges(q, refused, b"t", [b"ta.cer", b"ta/ca.cer"], b"ca/x.roa", "no 2")
    judges(q, parents(), b"t", [b"ta.cer", b"ta/b.cer", b"b/c.cer"], b"c/c.roa", "yes 3")
    judges(q, parents(), b"t", [b"ta.cer", b"ta/a.cer", b"a/c.cer"], b"c/c.roa", "no 2")
    judges(q, parents("b"), b"t", [b"ta.cer", b"ta/b.cer", b"b/c.cer"], b"c/c.roa", "yes 3")
    judges(q, customers(), b"t", ta, b"ta/b.asa", "yes 1")
    # The judge climbs: C's key (4) is asked of before B's (3), and that before the anchor's (1).
    chain = b",".join(HOST + uri for uri in (b"ta.cer", b"ta/b.cer", b"b/c.cer")).decode()
    q.ask("true 4 3 1", "asks", "t", chain, (HOST + b"c/c.roa").decode(), parents().bundle().hex())
    reaches(q, world, [HOST + a], "192.0.2.0/24")
    reaches(q, world, [HOST + b"ta.cer"], "locator")
    for uris in ([HOST + b"none"], [b"x"], []):
        reaches(q, world, uris, "")
        reaches(q, trimmed(), uris, "")
    for uri in (b"rsync://r.example/m/ca/x.roa", b"RSYNC://R.Example/m/ca/x.roa", HOST + b"ta/ca.cer"):
        reaches(q, trimmed(), [uri], "10.0.0.0/8")
    reaches(q, parents(), [HOST + b"c/c.roa"], "10.0.0.0/8")
    reaches(q, parents(), [HOST + b"a/c.cer"], "10.0.0.0/9")
    places = sorted(uri for uri in second().objects if uri.startswith(OTHER + b"ta/"))
    reaches(q, second(), places, "198.51.100.0/24")
    reaches(q, second(), [*places, HOST + a])
    reaches(q, second(), [OTHER + b"ta.cer"], "locator")
    reaches(q, customers(), [HOST + b"ta/b.asa"], "asn: 'AS0-AS4294967295', ipv4: '', ipv6: ''")
    relaxed_ones(q)
    for world in (single()[0], customers(), parents(), trimmed(), second(), cycle(3), rpki_relaxed.ber_manifest(True)):
        octets = world.bundle()
        rows = sorted((file, locator, chain) for locator, chain, file in rpki_model.walk(octets).witnesses)
        said = " ".join(" ".join(part.decode() for part in (b"good", file, locator, *chain)) for file, locator, chain in rows)
        q.ask(said, "witnesses", octets.hex())


def relaxed_ones(q):
    """What is judged and reached where objects are in BER: a manifest that doesn't read names nothing."""
    a, ta = b"ta/a.roa", [b"ta.cer"]
    for relaxed in (True, False, None):
        said = "yes 1" if relaxed else None
        judges(q, rpki_relaxed.ber_roa(relaxed), b"t", ta, a, said or "no 1")
        judges(q, rpki_relaxed.ber_manifest(relaxed), b"t", ta, a, said or "no 0")
        reaches(q, rpki_relaxed.ber_roa(relaxed), [HOST + a], "192.0.2.0/24")
        reaches(q, rpki_relaxed.ber_manifest(relaxed), [HOST + a], "192.0.2.0/24" if relaxed else "")
        reaches(q, rpki_relaxed.ber_manifest(relaxed), [HOST + b"ta/ta.mft"], "192.0.2.0/24")


def faults(q, world):
    """A front of the bundle, a writer that is full, a reader that fails, each place in turn; one octet a time."""
    octets = world.bundle()
    said = outcome(octets)
    written = said.removeprefix("ok ")
    q.ask(in_a_row(outcome(octets[:size]) for size in range(len(octets))), "cuts", "fips", octets.hex())
    for end in ("fails", "full"):
        rooms = [f"write fault {written[:room]}" for room in range(len(written))]
        q.ask(in_a_row([*rooms, said]), "rooms", end, octets.hex())
    # (the last read finds that there are no more octets)
    reads = -(-len(octets) // 100) + 1
    q.ask(in_a_row(["read fault "] * reads + [said]), "reads", "100", octets.hex())
    q.check(octets, reader=("1", MANY), writer=("1", MANY, "fails"))


def asked_whole():
    """The worlds whose bundles are asked octet by octet."""
    return single()[0], customers(), parents(), trimmed(), rpki_relaxed.ber_roa(True)


def walks(q):
    """Asks all questions."""
    for name, world, lines in worked_cases():
        octets = world.bundle()
        found = rpki_model.answer(octets)
        assert lines is None or found == lines, (name, found)
        assert lines is not None or not any(line.startswith("roa") for line in found), (name, found)
        q.check(octets, wanted=(0, text(found), ""))
    for name, world in hostile():
        found = rpki_model.answer(world.bundle())
        assert found is not None, name
        q.check(world.bundle(), wanted=(0, text(found), ""))
    for name, world in rpki_relaxed.worlds():
        q.check(world.bundle())
    for world in asked_whole():
        q.check(world.bundle())
        faults(q, world)
    flips(q, rpki_relaxed.ber_roa(True).bundle(), "fips", Fips)
    octets = single()[0].bundle()
    said = [outcome(octets[:at] + bytes([octets[at] ^ 1]) + octets[at + 1 :]) for at in range(len(octets))]
    assert all(one == "ok " + text(SINGLE) or "roa" not in one.replace("a.roa", "") for one in said)
    flips(q, octets, "fips", Fips)
    constant(q)
    judge_and_reach(q)
