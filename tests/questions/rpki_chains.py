"""Worlds of certificates and objects as lists, and what the rules say of them, by trying all chains.

Nothing here has octets: a world has locators by name and things by URI, and each thing says what it is. What is attested,
refused, judged and reached is told by the definitions themselves: every list of certificates of a world, up to its depth,
is tried as a chain. tests/questions/rpki_worlds.py makes worlds, and writes their octets.
"""

import ipaddress
import itertools

# Of each kind eight numbers, or blocks of as many addresses: AS64496 on, 10.0.0.0/16 on, 2001:db8::/32 on.
KINDS = ("as", "v4", "v6")
UNITS = 8
FIRST_AS = 64496
FIRST = {"v4": int(ipaddress.ip_address("10.0.0.0")), "v6": int(ipaddress.ip_address("2001:db8::"))}
SIZE = {"v4": 2**16, "v6": 2**96}
BITS = {"v4": 32, "v6": 128}


class World:
    """Locators by name, and what stands at URIs."""

    def __init__(self, depth=32):
        self.depth = depth
        self.locators = {}
        self.at = {}


class Locator:
    """A locator: the URIs in its order and the key; of a text that is none no key."""

    def __init__(self, key=None, uris=()):
        self.key, self.uris = key, list(uris)


class Thing:
    """What stands at a URI: `cer`, `point`, `crl`, `roa`, `asa` or `junk`.

    `kind` is `ta`, `ca`, `router` or `bad` of a certificate, else `good` or `bad`. A certificate has the key `key` and a
    manifest's URI; it and an object are signed by the key `issuer`, and name the revocation list at `crl`. A point is a
    manifest, with what each of its files was as it was published. A list has what it revokes.
    """

    def __init__(self, what, kind="good", **said):
        self.what, self.kind = what, kind
        self.key = self.issuer = self.crl = self.manifest = None
        self.policy, self.claims = "refuse", {}
        self.files, self.revoked = {}, []
        self.number, self.prefixes, self.providers = 0, [], []
        self.__dict__.update(said)


# Numbers as texts.


def address(kind, value):
    return str((ipaddress.IPv4Address if kind == "v4" else ipaddress.IPv6Address)(value))


def prefix_of(kind, first, count):
    """The first address and the length of so many blocks, from that one on."""
    length = BITS[kind] - (SIZE[kind] * count).bit_length() + 1
    return FIRST[kind] + first * SIZE[kind], length


def runs(numbers):
    """The maximal runs, each by its first number and its count."""
    found = []
    for n in sorted(numbers):
        if found and found[-1][0] + found[-1][1] == n:
            found[-1][1] += 1
        else:
            found.append([n, 1])
    return found


def run_text(kind, first, count):
    if kind == "as":
        low, high = FIRST_AS + first, FIRST_AS + first + count - 1
        return f"AS{low}" if count == 1 else f"AS{low}-AS{high}"
    if count & (count - 1) == 0 and first % count == 0:
        value, length = prefix_of(kind, first, count)
        return f"{address(kind, value)}/{length}"
    low = FIRST[kind] + first * SIZE[kind]
    return f"{address(kind, low)}-{address(kind, low + count * SIZE[kind] - 1)}"


def texts(kind, numbers):
    return [run_text(kind, first, count) for first, count in runs(numbers)]


def set_text(asn, v4, v6):
    """The sets of the three kinds, each by its texts."""
    return f"asn: '{', '.join(asn)}', ipv4: '{', '.join(v4)}', ipv6: '{', '.join(v6)}'"


# What chains hold.


def with_claim(held, claim):
    """What is held below a claim: of the first, above which nothing says what is held, all that it lists or inherits."""
    if claim == "none":
        return frozenset()
    if claim == "inherit":
        return frozenset(range(UNITS)) if held is None else held
    return claim if held is None else held & claim


def holds(world, chain, kind):
    """What a chain holds: the first lists it, and each later certificate lists it or inherits the kind. (No anchor inherits.)"""
    held = None
    for uri in chain:
        held = with_claim(held, world.at[uri].claims[kind])
    return held


def fits(world, chain, thing):
    """No number that isn't held is listed under `refuse`."""
    listed = (kind for kind in KINDS if not isinstance(thing.claims[kind], str))
    return thing.policy == "trim" or all(thing.claims[kind] <= holds(world, chain, kind) for kind in listed)


# Which chains are accepted.


def is_a(world, uri, what):
    return uri in world.at and world.at[uri].what == what


def anchor(world, name):
    """The URI of the locator's anchor, if it has one: of its URIs, https first, the first that is held."""
    locator = world.locators[name]
    ordered = sorted(locator.uris, key=lambda uri: not uri.startswith("https://"))
    held = next((uri for uri in ordered if uri in world.at), None)
    if locator.key is None or held is None or not is_a(world, held, "cer"):
        return None
    cer = world.at[held]
    return held if cer.kind == "ta" and cer.key == locator.key and "inherit" not in cer.claims.values() else None


def point(world, chain):
    """The point of the last certificate, where it stands."""
    found = unheld(world, chain[-1])
    return found if found is not None and fits(world, chain, found) else None


def unheld(world, uri):
    """The point of the certificate there, if it has one: its manifest, each file as it lists it, and the list. (A router has none.)"""
    last = world.at[uri]
    if last.kind == "router" or not is_a(world, last.manifest, "point"):
        return None
    found = world.at[last.manifest]
    if found.kind != "good" or found.key != last.key:
        return None
    if any(world.at.get(uri) is not listed for uri, listed in found.files.items()):
        return None
    crl = found.files.get(found.crl)
    return found if crl is not None and crl.what == "crl" and crl.kind == "good" and crl.key == last.key else None


def is_signed(world, chain, found, thing):
    """The chain's last certificate signed it, and the point's list, which it names, hasn't revoked it."""
    revoked = any(one is thing for one in found.files[found.crl].revoked)
    return thing.issuer == world.at[chain[-1]].key and thing.crl == found.crl and not revoked


def is_child(world, chain, found, uri):
    """At that URI a certificate of an authority is issued as it should."""
    cer = world.at[uri]
    return cer.kind == "ca" and is_signed(world, chain, found, cer) and fits(world, chain, cer)


def is_issued(world, chain, uri):
    found = point(world, chain)
    listed = found is not None and uri in found.files and uri.endswith(".cer")
    return listed and is_a(world, uri, "cer") and is_child(world, chain, found, uri)


def is_accepted(world, name, chain):
    if anchor(world, name) != chain[0] or len(chain) > world.depth:
        return False
    return differ(world, chain) and descends(world, chain)


def differ(world, chain):
    """Whether no key occurs twice."""
    keys = [world.at[uri].key for uri in chain]
    return len(set(keys)) == len(keys)


def descends(world, chain):
    """Whether each next certificate is issued by those in front of it."""
    return all(is_issued(world, chain[:n], chain[n]) for n in range(1, len(chain)))


def accepted(world):
    """All chains that are accepted, by trying all lists of certificates."""
    cers = [uri for uri in world.at if world.at[uri].what == "cer"]
    for name in world.locators:
        for length in range(1, min(world.depth, len(cers)) + 1):
            for chain in itertools.product(cers, repeat=length):
                if is_accepted(world, name, chain):
                    yield name, chain


# What is attested and refused.


def is_good(world, chain, uri):
    """The object is good at the end of the chain."""
    found = point(world, chain)
    if found is None or uri not in found.files:
        return False
    thing = world.at[uri]
    if thing.what not in ("roa", "asa") or not uri.endswith("." + thing.what) or thing.kind != "good":
        return False
    if not is_signed(world, chain, found, thing) or not fits(world, chain, thing):
        return False
    held = {kind: with_claim(holds(world, chain, kind), thing.claims[kind]) for kind in KINDS}
    if thing.what == "asa":
        return thing.number in held["as"]
    return all(set(range(first, first + count)) <= held[kind] for kind, first, count, _ in thing.prefixes)


def refusals(world, chain):
    """What the chain refuses."""
    found = point(world, chain)
    if found is None:
        yield chain[-1], "point"
        return
    keys = [world.at[uri].key for uri in chain]
    for uri in found.files:
        if uri.endswith(".cer"):
            if not is_a(world, uri, "cer"):
                yield uri, "object"
            elif world.at[uri].kind != "router":
                if not is_child(world, chain, found, uri):
                    yield uri, "object"
                elif world.at[uri].key in keys:
                    yield uri, "loop"
                elif len(chain) >= world.depth:
                    yield uri, "depth"
        elif uri.endswith((".roa", ".asa")) and not is_good(world, chain, uri):
            yield uri, "object"


class Walked:
    """All that the accepted chains of a world attest, and all that the rules refuse."""

    def __init__(self, world):
        self.origins, self.customers, self.refused, self.witnesses = set(), {}, set(), set()
        for name, locator in world.locators.items():
            if locator.key is None:
                self.refused.add((name, "tal"))
            elif anchor(world, name) is None:
                self.refused.add((name, "anchor"))
        for name, chain in accepted(world):
            self.refused |= set(refusals(world, chain))
            found = point(world, chain)
            for uri in found.files if found else ():
                if is_good(world, chain, uri):
                    self.witnesses.add((uri, name, chain))
                    self.attest(world.at[uri])

    def attest(self, thing):
        if thing.what == "asa":
            self.customers.setdefault(thing.number, set()).update(thing.providers)
        for kind, first, count, longest in thing.prefixes:
            value, length = prefix_of(kind, first, count)
            self.origins.add((kind, value, length, longest or length, thing.number))

    def lines(self):
        """The lines, in their order, and those of witnesses."""
        for kind, value, length, longest, asn in sorted(self.origins):
            yield f"roa AS{FIRST_AS + asn} {address(kind, value)}/{length} {longest}"
        for customer, providers in sorted(self.customers.items()):
            yield f"aspa AS{FIRST_AS + customer}" + "".join(f" AS{FIRST_AS + n}" for n in sorted(providers))
        yield from (f"refused {uri} {why}" for uri, why in sorted(self.refused))
        yield from (f"witness {uri} {name} {' '.join(chain)}" for uri, name, chain in sorted(self.witnesses))


def judged(world, name, uri, chain):
    right = (
        name in world.locators
        and all(is_a(world, one, "cer") for one in chain)
        and is_accepted(world, name, chain)
        and is_good(world, chain, uri)
    )
    return f"{'yes' if right else 'no'} {points_read(world, uri, chain)}"


def points_read(world, uri, chain):
    """How many points are read, from the object's up: of the certificates that each are one, with keys that differ, the last's,
    and each further one below which all is good by itself, where the first of it holds all that it lists or inherits."""
    if len(chain) > world.depth or not all(is_a(world, one, "cer") for one in chain) or not differ(world, chain):
        return 0
    for at in reversed(range(len(chain))):
        lower = chain[at + 1 :]
        if (lower and not (descends(world, lower) and is_good(world, lower, uri))) or unheld(world, chain[at]) is None:
            return len(lower)
    return len(chain)


# What some URIs can reach.


def is_named(world, uris):
    """Whether a locator names one of the URIs."""
    return any(locator.key is not None and set(locator.uris) & set(uris) for locator in world.locators.values())


def naming(world, uris):
    """The accepted chains whose last certificate names one of the URIs: as its manifest's, or as a file's in there."""
    for _, chain in accepted(world):
        manifest = world.at[chain[-1]].manifest
        if ({manifest} | (set(world.at[manifest].files) if is_a(world, manifest, "point") else set())) & set(uris):
            yield chain


def reached(world, uris):
    """None where a locator names one of the URIs, else of each kind what those chains hold."""
    if is_named(world, uris):
        return None
    held = {kind: frozenset() for kind in KINDS}
    for chain in naming(world, uris):
        held = {kind: held[kind] | holds(world, chain, kind) for kind in KINDS}
    return held


def reach_text(held):
    return "locator" if held is None else set_text(*(texts(kind, held[kind]) for kind in KINDS))
