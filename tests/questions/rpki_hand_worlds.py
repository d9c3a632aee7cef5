"""Worlds made by hand, for tests/questions/rpki_worlds.py: worked cases as lists of locators and things, and what is stated of them."""

import rpki_chains
from rpki_chains import FIRST_AS, KINDS, Locator, Thing, World


# A world is a line for each locator and thing. Behind these stand lines that change it: `revoked`, `changed` or `gone`, with a
# URI.


def claims_said(words):
    """A policy, and the claims of the three kinds, each a word or a list with commas."""
    policy, *claims = words
    said = {kind: claim if claim in ("inherit", "none") else tuple(claim.split(",")) for kind, claim in zip(KINDS, claims)}
    return {"policy": policy, "claims": said}


def list_of(folder):
    """The revocation list of a folder, named as it."""
    return f"{folder}/{folder.rpartition('/')[2]}.crl"


def thing_said(uri, what, words):
    crl = list_of(uri.rpartition("/")[0])
    if what == "cer":
        kind, key, issuer, *claims, at = words
        return Thing(what, kind, key=key, issuer=issuer, crl=None if kind == "ta" else crl, manifest=at, **claims_said(claims))
    kind, issuer, *claims = words[:6]
    thing = Thing(what, kind, issuer=issuer, crl=crl, **claims_said(claims))
    thing.number, named = int(words[6][2:]) - FIRST_AS, words[7:]
    if what == "asa":
        thing.providers = [int(word[2:]) - FIRST_AS for word in named]
    else:
        thing.prefixes = named
    return thing


def world_said(lines):
    world, points, changes = World(), [], []
    for what, name, *words in map(str.split, lines):
        if what == "world":
            world.depth = int(name)
        elif what == "locator":
            world.locators[name] = Locator(words[0] if words else None, words[1:])
        elif what == "point":
            points.append((name, words))
        elif what in ("revoked", "changed", "gone"):
            changes.append((what, name))
        else:
            world.at[name] = Thing(what) if what == "junk" else thing_said(name, what, words)
    for at, (kind, key, *words) in points:
        crl = list_of(at.rpartition("/")[0])
        world.at[crl] = Thing("crl", key=key)
        files = {uri: world.at[uri] for uri in (crl, *words[4:])}
        world.at[at] = Thing("point", kind, key=key, crl=crl, files=files, **claims_said(words[:4]))
    for what, at in changes:
        change_said(world, what, at)
    return world


def change_said(world, what, at):
    if what == "revoked":
        world.at[list_of(at.rpartition("/")[0])].revoked.append(world.at[at])
    elif what == "changed":
        world.at[at] = Thing("junk")
    else:
        del world.at[at]


INHERIT = "inherit inherit inherit"
M = "rsync://r.example/m"
TA = f"{M}/ta.cer"


def anchor_lines(claims, files, depth=32):
    return [
        f"world {depth}",
        f"locator t a {TA}",
        f"cer {TA} ta a a refuse {claims} {M}/ta/ta.mft",
        f"point {M}/ta/ta.mft good a refuse {INHERIT} {files}",
    ]


def single(manifest=INHERIT):
    lines = anchor_lines("none 192.0.2.0/24 none", f"{M}/ta/a.roa")
    lines[3] = lines[3].replace(INHERIT, manifest)
    return lines + [f"roa {M}/ta/a.roa good a refuse none 192.0.2.0/24 none AS64496 192.0.2.0/24"]


def trimmed(policy, claims, depth=32):
    return anchor_lines("none 10.0.0.0/8 none", f"{M}/ta/ca.cer", depth) + [
        f"cer {M}/ta/ca.cer ca c a {policy} {claims} {M}/ca/ca.mft",
        f"point {M}/ca/ca.mft good c refuse {INHERIT} {M}/ca/x.roa {M}/ca/y.roa",
        f"roa {M}/ca/x.roa good c refuse none 10.1.0.0/16 none AS64496 10.1.0.0/16",
        f"roa {M}/ca/y.roa good c trim none 11.1.0.0/16 none AS64496 11.1.0.0/16",
    ]


def parents(first="10.0.0.0/9"):
    lines = anchor_lines("none 10.0.0.0/8 none", f"{M}/ta/a.cer {M}/ta/b.cer")
    for key, claim in ("A", first), ("B", "10.128.0.0/9"):
        low = key.lower()
        lines += [
            f"cer {M}/ta/{low}.cer ca {key} a refuse none {claim} none {M}/{low}/{low}.mft",
            f"point {M}/{low}/{low}.mft good {key} refuse {INHERIT} {M}/{low}/c.cer",
            f"cer {M}/{low}/c.cer ca C {key} refuse none inherit none {M}/c/c.mft",
        ]
    return lines + [
        f"point {M}/c/c.mft good C refuse {INHERIT} {M}/c/c.roa",
        f"roa {M}/c/c.roa good C refuse none inherit none AS64496 10.200.0.0/16",
    ]


def loop(depth, name, key):
    return anchor_lines("none 10.0.0.0/8 none", f"{M}/ta/b.cer", depth) + [
        f"cer {M}/ta/b.cer ca b a refuse none inherit none {M}/b/b.mft",
        f"point {M}/b/b.mft good b refuse {INHERIT} {M}/b/{name}",
        f"cer {M}/b/{name} ca {key} b refuse none inherit none {M}/{key}/{key}.mft",
    ]


U = "rsync://u.example/m"


def second():
    return single() + [
        f"locator u u {U}/ta.cer",
        f"cer {U}/ta.cer ta u u refuse none 198.51.100.0/24 none {U}/ta/ta.mft",
        f"point {U}/ta/ta.mft good u refuse {INHERIT} {U}/ta/b.cer",
        f"cer {U}/ta/b.cer ca b u refuse none inherit none {M}/ta/ta.mft",
    ]


def set_of(*v4):
    return rpki_chains.set_text((), v4, ())


LINE = "roa AS64496 192.0.2.0/24 24"
BOTH = "10.0.0.0/8,11.0.0.0/8"
# What a walk, a judge and a reach answer of each.
WORLDS = {
    "single-roa": (single(), {"walk": [LINE]}),
    "ipv6-roa": (
        anchor_lines("none none 2001:db8::/32", f"{M}/ta/a.roa")
        + [f"roa {M}/ta/a.roa good a refuse none none 2001:db8::/32 AS64496 2001:db8::/32-48"],
        {"walk": ["roa AS64496 2001:db8::/32 48"]},
    ),
    "revoked-roa": ([*single(), f"revoked {M}/ta/a.roa"], {"walk": [f"refused {M}/ta/a.roa object"]}),
    "changed-roa": ([*single(), f"changed {M}/ta/a.roa"], {"walk": [f"refused {TA} point"]}),
    "manifest-lists: a file that isn't there": (
        [line.replace("a.roa", f"a.roa {M}/ta/z.txt") if line.startswith("point") else line for line in single()]
        + [f"junk {M}/ta/z.txt", f"gone {M}/ta/z.txt"],
        {"walk": [f"refused {TA} point"]},
    ),
    "judge-and-reach": (
        single(),
        {
            f"judge t {M}/ta/a.roa {TA}": "yes 1",
            f"judge u {M}/ta/a.roa {TA}": "no 1",
            f"judge t {M}/ta/a.roa {TA} {TA}": "no 0",
            f"reach {M}/ta/a.roa": set_of("192.0.2.0/24"),
            f"reach {TA}": "locator",
        },
    ),
    "manifest-overclaim": (
        single("AS64500 inherit inherit"),
        {"walk": [f"refused {TA} point"], f"judge t {M}/ta/a.roa {TA}": "no 1"},
    ),
    "two-aspas": (
        anchor_lines("AS0-AS4294967295 none none", f"{M}/ta/a.asa {M}/ta/b.asa")
        + [f"asa {M}/ta/a.asa good a refuse AS15562 none none AS15562 AS2914 AS8283"]
        + [f"asa {M}/ta/b.asa good a refuse AS15562 none none AS15562 AS8283 AS51088"],
        {"walk": ["aspa AS15562 AS2914 AS8283 AS51088"]},
    ),
    "two-parents": (
        parents(),
        {
            "walk": ["roa AS64496 10.200.0.0/16 16", f"refused {M}/c/c.roa object"],
            f"judge t {M}/c/c.roa {TA} {M}/ta/b.cer {M}/b/c.cer": "yes 3",
            f"judge t {M}/c/c.roa {TA} {M}/ta/a.cer {M}/a/c.cer": "no 2",
            f"reach {M}/c/c.roa": set_of("10.0.0.0/8"),
            f"reach {M}/none": set_of(),
            "reach x": set_of(),
            "reach": set_of(),
        },
    ),
    "laws: cut down": (
        [line for line in parents() if not line.startswith((f"point {M}/a/", f"cer {M}/a/"))],
        {
            "walk": ["roa AS64496 10.200.0.0/16 16", f"refused {M}/ta/a.cer point"],
            f"judge t {M}/c/c.roa {TA} {M}/ta/b.cer {M}/b/c.cer": "yes 3",
        },
    ),
    "laws: without the verdict of an anchor": (
        [line.replace(" ta a a ", " bad a a ") for line in single()],
        {"walk": ["refused t anchor"]},
    ),
    "laws: without that of an object": (
        [line.replace("a.roa good", "a.roa bad") for line in single()],
        {"walk": [f"refused {M}/ta/a.roa object"]},
    ),
    "laws: without that of a point": (
        [line.replace("ta.mft good", "ta.mft bad") for line in single()],
        {"walk": [f"refused {TA} point"]},
    ),
    "laws: depth": (
        trimmed("trim", f"none {BOTH} none", 2),
        {"walk": ["roa AS64496 10.1.0.0/16 16", f"refused {M}/ca/y.roa object"]},
    ),
    "trimmed-ca": (
        trimmed("trim", f"none {BOTH} none"),
        {
            "walk": ["roa AS64496 10.1.0.0/16 16", f"refused {M}/ca/y.roa object"],
            f"judge t {M}/ca/x.roa {TA} {M}/ta/ca.cer": "yes 2",
            f"judge t {M}/ca/y.roa {TA} {M}/ta/ca.cer": "no 2",
            f"reach {M}/ca/x.roa": set_of("10.0.0.0/8"),
            f"reach {M}/ta/ca.cer": set_of("10.0.0.0/8"),
        },
    ),
    "trimmed-ca: refuse": (
        trimmed("refuse", f"none {BOTH} none"),
        {"walk": [f"refused {M}/ta/ca.cer object"], f"judge t {M}/ca/x.roa {TA} {M}/ta/ca.cer": "no 2"},
    ),
    "judge-trim": (
        trimmed("refuse", "AS64500 10.0.0.0/8 none"),
        {"walk": [f"refused {M}/ta/ca.cer object"], f"judge t {M}/ca/x.roa {TA} {M}/ta/ca.cer": "no 2"},
    ),
    "depth-one: depth": (trimmed("trim", f"none {BOTH} none", 1), {"walk": [f"refused {M}/ta/ca.cer depth"]}),
    "depth-one: loop": (loop(2, "a.cer", "a"), {"walk": [f"refused {M}/b/a.cer loop"]}),
    "loop-and-depth": (loop(32, "a.cer", "a"), {"walk": [f"refused {M}/b/a.cer loop"]}),
    "loop-and-depth: depth": (loop(2, "c.cer", "c"), {"walk": [f"refused {M}/b/c.cer depth"]}),
    "second-locator": (
        second(),
        {
            "walk": [LINE, f"refused {U}/ta/b.cer point"],
            f"reach {U}/ta/ta.mft {U}/ta/b.cer": set_of("198.51.100.0/24"),
        },
    ),
    "second-locator: its point taken out": (
        [*second(), f"gone {U}/ta/ta.mft"],
        {"walk": [LINE, f"refused {U}/ta.cer point"]},
    ),
    "second-locator: a file changed": ([*second(), f"changed {U}/ta/b.cer"], {"walk": [LINE, f"refused {U}/ta.cer point"]}),
    "second-locator: its anchor changed": ([*second(), f"changed {U}/ta.cer"], {"walk": [LINE, "refused u anchor"]}),
    "router-cer": (
        [line.replace("a.roa", f"a.roa {M}/ta/r.cer") if line.startswith("point") else line for line in single()]
        + [f"cer {M}/ta/r.cer router r a refuse AS64496 none none {M}/r.mft"],
        {"walk": [LINE]},
    ),
    "router-cer: unreadable": (
        [line.replace("a.roa", f"a.roa {M}/ta/r.cer") if line.startswith("point") else line for line in single()]
        + [f"junk {M}/ta/r.cer"],
        {"walk": [LINE, f"refused {M}/ta/r.cer object"]},
    ),
    "first-uri: held": (
        [line.replace(TA, f"{TA} https://r.example/ta.cer") if line.startswith("loc") else line for line in single()]
        + ["junk https://r.example/ta.cer"],
        {"walk": ["refused t anchor"]},
    ),
    "first-uri: not held": (
        [line.replace(TA, f"{TA} https://r.example/ta.cer") if line.startswith("loc") else line for line in single()],
        {"walk": [LINE]},
    ),
    "empty-locator": (["world 32", "locator x"], {"walk": ["refused x tal"], "reach x": set_of()}),
    "locator-order": (["world 32", "locator a", "locator b"], {"walk": ["refused a tal", "refused b tal"]}),
}
