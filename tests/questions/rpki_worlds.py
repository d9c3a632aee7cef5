#!/usr/bin/env python3
"""Questions about worlds, for tests/questions/validator.py; or asks the program about others by chance.

    rpki_worlds.py PROGRAM [COUNT [SEED]]

So many worlds are made by that seed, and it exits with 1 where the program answers otherwise.

Worlds are lists of locators and things (rpki_chains.py), made by hand (rpki_hand_worlds.py) and by chance; their octets are
tests/lib/rpki_repositories.py's. A world is told line by line, and each line that gives something is answered by an empty one. What is answered of a world by chance comes of trying every list of its certificates as
a chain, and is stated for one made by hand. Each walk is compared with tests/lib/rpki_model.py's, a second reading of the rules that
reads the octets.

Worlds are changed: depths are others, objects are forged or taken out, a verdict is taken out, and of all objects those alone are
left that a good witness's chain names. Of each change the laws are asserted: outside what the forged URIs can reach nothing
changes, and where no chain names them no line does; a greater depth keeps all; without a verdict nothing is attested that wasn't;
the witness stays good. What is judged is good exactly where the walk has it among its witnesses.
"""

import argparse
import hashlib
import pathlib
import random
import sys

sys.dont_write_bytecode = True
sys.path.insert(0, str(pathlib.Path(__file__).resolve().parents[1] / "lib"))

import asking  # noqa: E402
import rpki_chains  # noqa: E402
import rpki_model  # noqa: E402
from rpki_bundles import bundle  # noqa: E402
from rpki_chains import FIRST_AS, KINDS, UNITS, Locator, Thing, Walked, World, address, judged, prefix_of, reach_text, reached  # noqa: E402
from rpki_hand_worlds import WORLDS, world_said  # noqa: E402
from rpki_repositories import ASPA, FIRST, LAST, MANIFEST, ROA, Authority, World as Signer  # noqa: E402
from rpki_repositories import aspa, basic, claims_of, locator_text, manifest, policies, roa, usage  # noqa: E402
from validator_asked import Questions  # noqa: E402

COUNT = 48
WRONG_KEY = 999
NO_LOCATOR = b"no locator"


# Octets.


def parted(uri):
    """The folder and the name of a manifest, or of a list."""
    folder, _, file = uri.rpartition("/")
    return folder.encode() + b"/", file.rpartition(".")[0].encode()


def block_of(kind, text):
    """A block of a claim as tests/lib/rpki_repositories.py takes it."""
    if kind != "as":
        return text if "/" in text else tuple(text.split("-"))
    first, _, last = text.replace("AS", "").partition("-")
    return (int(first), int(last)) if last else int(first)


def claims_to_write(claims):
    names = {"as": "as", "v4": "ipv4", "v6": "ipv6"}
    listed = {kind: claim if isinstance(claim, (str, tuple)) else rpki_chains.texts(kind, claim) for kind, claim in claims.items()}
    return {
        names[kind]: claim if claim == "inherit" else [block_of(kind, text) for text in claim]
        for kind, claim in listed.items()
        if claim != "none"
    }


class Octets:
    """The octets of things, each made once, and the digests of the signatures that are good."""

    def __init__(self):
        self.signer = Signer()
        self.keys, self.serials, self.made = {}, {}, {}
        # of each thing the digests of its own signatures
        self.rows = {}

    def key(self, name):
        return self.keys.setdefault(name, len(self.keys) + 1)

    def serial(self, thing):
        if thing not in self.serials:
            self.serials[thing] = self.signer.number()
        return self.serials[thing]

    def of(self, uri, thing):
        if thing not in self.made:
            make = {"cer": self.cer, "crl": self.crl, "point": self.point, "roa": self.roa, "asa": self.asa, "junk": self.junk}
            self.made[thing] = make[thing.what](uri, thing)
            count = {"cer": 1, "crl": 1, "junk": 0}.get(thing.what, 2)
            self.rows[thing] = self.signer.verdicts[len(self.signer.verdicts) - count :]
        return self.made[thing]

    def junk(self, _uri, _thing):
        """Octets that are no value, and like no others."""
        return b"junk %d" % self.signer.number()

    def issuer(self, key, listed_at):
        """The authority with that key, whose revocation list, or manifest, is there."""
        folder, name = parted(listed_at)
        return Authority(self.signer, self.key(key), b"rsync://r/m/issuer.cer", folder, name)

    def signed_by(self, thing):
        return {"serial": self.serial(thing)} | ({"signer": WRONG_KEY} if thing.kind == "bad" else {})

    def cer(self, uri, thing):
        key, claims, trims = self.key(thing.key), claims_to_write(thing.claims), thing.policy == "trim"
        access = Authority(self.signer, key, uri.encode(), *parted(thing.manifest)).access()
        resources = [policies(trims), *claims_of(claims, trims)]
        if thing.crl is None:
            first = [basic(), self.signer.subject_key(key), self.signer.authority_key(key), usage(True)]
            return self.signer.cert(key, key, [*first, access, *resources], **self.signed_by(thing))
        issuer = self.issuer(thing.issuer, thing.crl)
        if thing.kind == "router":
            extensions = [*issuer.below(key, False), *resources]
        else:
            extensions = [*issuer.below(key, True), access, *resources]
        return self.signer.cert(key, issuer.key, extensions, **self.signed_by(thing))

    def crl(self, uri, thing):
        authority = self.issuer(thing.key, uri)
        authority.revoked = sorted(map(self.serial, thing.revoked))
        return authority.list_of_revoked(key=WRONG_KEY if thing.kind == "bad" else None)

    def point(self, uri, thing):
        digest = lambda at, file: hashlib.sha256(self.of(at, file)).digest()
        listed = [(at.rpartition("/")[2].encode(), digest(at, file)) for at, file in thing.files.items()]
        return self.signed(MANIFEST, manifest(1, (FIRST, LAST), listed), uri, thing, self.issuer(thing.key, uri))

    def roa(self, uri, thing):
        prefixes = [text + (f"-{longest}" if longest else "") for text, longest in map(prefix_text, thing.prefixes)]
        content = roa(FIRST_AS + thing.number, *prefixes)
        return self.signed(ROA, content, uri, thing, self.issuer(thing.issuer, thing.crl))

    def asa(self, uri, thing):
        content = aspa(FIRST_AS + thing.number, *(FIRST_AS + n for n in thing.providers))
        return self.signed(ASPA, content, uri, thing, self.issuer(thing.issuer, thing.crl))

    def signed(self, kind, content, uri, thing, issuer):
        file = uri.rpartition("/")[2].encode()
        claims, trims = claims_to_write(thing.claims), thing.policy == "trim"
        return issuer.signed(kind, content, file, claims, trims, **self.signed_by(thing))

    def locator(self, locator):
        if locator.key is None:
            return NO_LOCATOR
        return locator_text([uri.encode() for uri in locator.uris], self.key(locator.key))


def prefix_text(prefix):
    """A prefix, and the greatest length if one is said; a text stands for itself."""
    if isinstance(prefix, str):
        return prefix, None
    kind, first, count, longest = prefix
    value, length = prefix_of(kind, first, count)
    return f"{address(kind, value)}/{length}", longest


# What is asked.


class Asked:
    """Worlds as they are told, and what is asked of them."""

    def __init__(self, q):
        self.q = q

    def world(self, world, chance=None):
        """Tells a world, in an order by chance if one is given."""
        self.octets, self.told = Octets(), set()
        self.tell("empty", str(world.depth))
        parts = [("locator", name, self.octets.locator(locator).hex()) for name, locator in world.locators.items()]
        parts += [("object", uri, self.octets.of(uri, thing).hex()) for uri, thing in world.at.items()]
        parts += self.verdicts()
        if chance:
            chance.shuffle(parts)
        for part in parts:
            self.tell(*part)

    def tell(self, *words):
        """Gives something of the world."""
        self.ask("", *words)

    def verdicts(self):
        """The words of each good signature that wasn't told."""
        new = [row for row in self.octets.signer.verdicts if row not in self.told]
        self.told |= set(new)
        return [("verdict", *(digest.hex() for digest in row)) for row in new]

    def put(self, uri, thing):
        octets = self.octets.of(uri, thing)
        for part in (*self.verdicts(), ("object", uri, octets.hex())):
            self.tell(*part)

    def unsay(self, row):
        """Takes a verdict out."""
        self.octets.signer.verdicts.remove(row)
        self.tell("unsaid", *(digest.hex() for digest in row))

    def clear(self, world, uri):
        """Takes an object out."""
        del world.at[uri]
        self.tell("without", uri)

    def ask(self, answer, *words):
        """Asks of the world."""
        self.q.ask(answer, "world", *words)

    def read(self, world):
        """What the second reading finds in the octets of a world."""
        of = self.octets
        locators = sorted((name.encode(), of.locator(locator)) for name, locator in world.locators.items())
        objects = sorted((uri.encode(), of.of(uri, thing)) for uri, thing in world.at.items())
        return rpki_model.walk(bundle(locators, objects, sorted(of.signer.verdicts), depth=world.depth))

    def walk(self, world, stated=None):
        """Asks for a walk, of which the lines are stated or come of all chains."""
        found = self.read(world)
        witnesses = [
            " ".join(["witness", file.decode(), name.decode(), *(uri.decode() for uri in chain)])
            for file, name, chain in sorted((file, name, chain) for name, chain, file in found.witnesses)
        ]
        walked = Walked(world) if stated is None else None
        lines = [*stated, *witnesses] if stated is not None else list(walked.lines())
        assert lines == [*rpki_model.lines(found), *witnesses]
        self.ask("".join(f"{line}|" for line in lines), "walk")
        return walked

    def judge(self, world, name, uri, chain, answer):
        """Asks the judge; the second reading has to count as many points."""
        count = self.read(world).points_read([one.encode() for one in chain], uri.encode())
        assert answer.split()[1:] == [str(count)], (name, uri, chain, answer, count)
        self.ask(answer, "judge", name, ",".join(chain), uri)

    def reach(self, world, uris):
        held = reached(world, uris)
        self.ask(reach_text(held), "reach", ",".join(uris))
        return held


# Laws.


def outside(walked, held):
    """The origins and the customers with their providers that don't touch what is held."""
    def touches(origin):
        kind, value, length, _, _ = origin
        first = (value - rpki_chains.FIRST[kind]) // rpki_chains.SIZE[kind]
        count = 2 ** (rpki_chains.BITS[kind] - length) // rpki_chains.SIZE[kind]
        return set(range(first, first + count)) & held[kind]

    customers = {customer: providers for customer, providers in walked.customers.items() if customer not in held["as"]}
    return {origin for origin in walked.origins if not touches(origin)}, customers


def assert_inside(world, before, after, uris):
    """What is forged at these URIs changes nothing outside what they reach."""
    held = reached(world, uris)
    if held is None:
        return
    assert outside(before, held) == outside(after, held)
    whys = ("tal", "anchor")
    assert {row for row in before.refused if row[1] in whys} == {row for row in after.refused if row[1] in whys}
    if not any(rpki_chains.naming(world, uris)):
        assert list(before.lines()) == list(after.lines())


def assert_kept(shallow, deep):
    """A greater depth keeps all that is attested."""
    assert shallow.origins <= deep.origins and shallow.witnesses <= deep.witnesses
    assert all(providers <= deep.customers.get(customer, set()) for customer, providers in shallow.customers.items())


# Worlds by chance.


def folder_of(key):
    return f"rsync://r/m/{key}/"


def manifest_of(key):
    return f"{folder_of(key)}{key}.mft"


def crl_of(key):
    return f"{folder_of(key)}{key}.crl"


def chance_set(chance):
    """Numbers of a kind: most often many."""
    if chance.random() < 0.25:
        return frozenset(range(UNITS))
    return frozenset(n for n in range(UNITS) if chance.random() < 0.75) or frozenset(range(3))


def chance_claims(chance, inherited=0.35, missing=0.1):
    def one():
        number = chance.random()
        return "inherit" if number < inherited else "none" if number < inherited + missing else chance_set(chance)

    claims = {kind: one() for kind in KINDS}
    if set(claims.values()) == {"none"}:
        claims["as"] = chance_set(chance)
    return claims


def chance_object(chance, folder, issuer):
    thing = Thing(chance.choice(("roa", "roa", "asa")), "good" if chance.random() < 0.93 else "bad", issuer=issuer)
    thing.crl, thing.policy = crl_of(folder), chance.choice(("refuse", "refuse", "trim"))
    thing.claims, thing.number = chance_claims(chance, 0.6, 0.05), chance.randrange(UNITS)
    if thing.what == "asa":
        others = [n for n in range(UNITS) if n != thing.number]
        thing.providers = sorted(chance.sample(others, chance.randrange(1, 4)))
        return thing
    for _ in range(chance.randrange(1, 4)):
        count = chance.choice((1, 1, 1, 2, 2, 4))
        kind = chance.choice(("v4", "v6"))
        length = prefix_of(kind, 0, count)[1]
        longest = chance.choice((None, length, length + 1, 24 if kind == "v4" else 48))
        thing.prefixes.append((kind, chance.randrange(UNITS // count) * count, count, longest))
    # the families stand one after the other in a ROA
    thing.prefixes.sort(key=lambda prefix: prefix[0])
    return thing


def chance_cer(chance, folder, issuer, key, keys):
    kind = chance.choice(("ca",) * 10 + ("router", "bad"))
    thing = Thing("cer", kind, key=key, issuer=issuer, crl=crl_of(folder), policy=chance.choice(("refuse", "trim", "trim")))
    thing.claims = chance_claims(chance)
    number = chance.random()
    thing.manifest = f"{folder_of(key)}gone.mft" if number < 0.05 else manifest_of(chance.choice(keys) if number < 0.1 else key)
    return thing


def publish(chance, world, key, files, steady=0.0):
    """Puts files at their URIs, with a revocation list and a manifest, which are sound unless it so happens."""
    sound = lambda: chance.random() < max(0.95, steady)
    revoked = [file for file in files.values() if not sound()]
    files[crl_of(key)] = Thing("crl", "good" if sound() else "bad", key=key, revoked=revoked)
    claims = {kind: "inherit" for kind in KINDS} if sound() else chance_claims(chance, 0.8, 0.05)
    point = Thing("point", "good" if sound() else "bad", key=key, crl=crl_of(key), claims=claims, files=dict(files))
    point.policy = chance.choice(("refuse", "trim"))
    world.at |= files
    world.at[manifest_of(key)] = point
    if not sound():
        del world.at[chance.choice(list(files))]


def chance_world(chance):
    """Any authorities that certify any others."""
    world = World(chance.choice((1, 2, 2, 3, 3, 3, 4)))
    keys = [f"k{n}" for n in range(chance.randrange(1, 5))]
    anchors = []
    for n in range(chance.choice((1, 1, 2))):
        uri, key = f"{chance.choice(('https', 'rsync'))}://t/m/ta{n}.cer", chance.choice(keys)
        world.at[uri] = Thing("cer", "ta" if chance.random() < 0.95 else "bad", key=key, manifest=manifest_of(key))
        world.at[uri].claims = chance_claims(chance, 0, 0.05)
        anchors.append(uri)
    files = {key: {} for key in keys}
    for n in range(chance.randrange(0, 5)):
        folder = chance.choice(keys)
        issuer = folder if chance.random() < 0.93 else chance.choice(keys)
        files[folder][f"{folder_of(folder)}c{n}.cer"] = chance_cer(chance, folder, issuer, chance.choice(keys), keys)
    for n in range(chance.randrange(1, 5)):
        folder = chance.choice(keys)
        thing = chance_object(chance, folder, folder if chance.random() < 0.93 else chance.choice(keys))
        name = thing.what if chance.random() < 0.95 else chance.choice(("roa", "asa", "cer", "gbr"))
        files[folder][f"{folder_of(folder)}o{n}.{name}"] = thing
    if chance.random() < 0.3:
        folder = chance.choice(keys)
        files[folder][f"{folder_of(folder)}junk.{chance.choice(('roa', 'cer', 'gbr'))}"] = Thing("junk")
    for key in keys:
        if chance.random() < 0.95:
            publish(chance, world, key, files[key])
    for n in range(chance.choice((1, 1, 2, 3))):
        uris = chance.sample(anchors, chance.randrange(1, len(anchors) + 1))
        uris += [f"{chance.choice(('https', 'rsync'))}://t/m/none{n}.cer"] if chance.random() < 0.2 else []
        uris += [chance.choice(list(world.at))] if chance.random() < 0.1 else []
        chance.shuffle(uris)
        key = world.at[chance.choice(anchors)].key if chance.random() < 0.95 else "k9"
        world.locators[f"l{n}"] = Locator(key, uris) if chance.random() < 0.95 else Locator()
    return world


def ladder_world(chance):
    """Authorities below one another, the last of which attest something; some have two parents, or certify one above."""
    world = World(chance.choice((3, 4, 4)))
    keys = [f"k{n}" for n in range(chance.choice((3, 4, 4)))]
    last = keys[-1]
    root = "rsync://t/m/ta.cer"
    world.at[root] = Thing("cer", "ta", key="k0", manifest=manifest_of("k0"))
    world.at[root].claims = {kind: frozenset(range(UNITS)) for kind in KINDS}
    world.locators["l"] = Locator("k0", [root])
    files = {key: {} for key in keys}

    def certify(parent, key, name):
        thing = Thing("cer", "ca", key=key, issuer=parent, crl=crl_of(parent), manifest=manifest_of(key))
        thing.policy, thing.claims = chance.choice(("refuse", "trim", "trim")), chance_claims(chance, 0.6, 0.03)
        files[parent][f"{folder_of(parent)}{name}.cer"] = thing

    for n in range(1, len(keys)):
        for parent in chance.sample(keys[:n], min(n, chance.choice((1, 2)))):
            certify(parent, keys[n], keys[n])
    if chance.random() < 0.5:
        certify(last, chance.choice(keys), "up")
    for n in range(chance.randrange(2, 5)):
        folder = chance.choice((last, last, chance.choice(keys)))
        thing = chance_object(chance, folder, folder)
        files[folder][f"{folder_of(folder)}o{n}.{thing.what}"] = thing
    for key in keys:
        publish(chance, world, key, files[key], 0.98)
    return world


# Questions about them.


def traces(chance, world, walked):
    """Traces to judge: a good one, the same with something else in a place or by another chain to its end, and any."""
    cers = [uri for uri in world.at if world.at[uri].what == "cer"]
    if walked.witnesses:
        uri, name, chain = chance.choice(sorted(walked.witnesses))
        yield name, uri, chain
        yield name, uri, (*chain, chance.choice(cers))
        yield name, chance.choice(list(world.at)), chain
        place = chance.randrange(len(chain))
        yield chance.choice(list(world.locators)), uri, (*chain[:place], chance.choice(cers), *chain[place + 1 :])
        others = [(at, way) for at, way in rpki_chains.accepted(world) if way[-1] == chain[-1] and (at, way) != (name, chain)]
        for at, way in others[-1:]:
            yield at, uri, way
    chain = tuple(chance.choice(list(world.at)) for _ in range(chance.randrange(1, world.depth + 2)))
    yield chance.choice(list(world.locators)), chance.choice(list(world.at)), chain


def some_uris(chance, world):
    """URIs that no locator names, if there are such."""
    inner = [uri for uri in world.at if not rpki_chains.is_named(world, [uri])] or list(world.at)
    return chance.sample(inner, min(len(inner), chance.choice((1, 1, 2))))


def forged(chance, world, uri):
    """Something else for that URI, which any authority may have signed: a manifest lists some of the files that are there."""
    keys = sorted({thing.key for thing in world.at.values() if thing.key})
    folder = uri.split("/")[-2] if uri.startswith("rsync://r/m/") else chance.choice(keys)
    if uri.endswith(".cer"):
        return chance_cer(chance, folder, chance.choice(keys), chance.choice(keys), keys)
    if uri.endswith(".mft"):
        there = {at: thing for at, thing in world.at.items() if at.startswith(folder_of(folder)) and thing.what != "point"}
        files = {at: thing for at, thing in there.items() if chance.random() < 0.8}
        inherits = {kind: "inherit" for kind in KINDS}
        return Thing("point", key=chance.choice((folder, *keys)), crl=crl_of(folder), claims=inherits, files=files)
    return chance_object(chance, folder, chance.choice(keys)) if chance.random() < 0.8 else Thing("junk")


def ask_depth(chance, asked, world, walked):
    """Asks the world at another depth."""
    depth, world.depth = world.depth, chance.choice([n for n in range(1, 5) if n != world.depth])
    asked.tell("depth", str(world.depth))
    other = asked.walk(world)
    assert_kept(*((other, walked) if world.depth < depth else (walked, other)))
    return other


def before(world):
    """The world as it is, to be looked at when it is changed."""
    kept = World(world.depth)
    kept.locators, kept.at = world.locators, dict(world.at)
    return kept


def ask_forged(chance, asked, world, walked):
    """Asks what some URIs can reach, and the world with other objects there."""
    kept, uris = before(world), some_uris(chance, world)
    asked.reach(world, uris)
    for uri in uris:
        world.at[uri] = forged(chance, world, uri)
        asked.put(uri, world.at[uri])
    changed = asked.walk(world)
    assert_inside(kept, walked, changed, uris)
    return changed


def ask_without(chance, asked, world, walked):
    """Asks the world without one of its objects."""
    kept, uris = before(world), some_uris(chance, world)[:1]
    asked.clear(world, uris[0])
    changed = asked.walk(world)
    assert_inside(kept, walked, changed, uris)
    return changed


def ask_unsaid(chance, asked, world, walked):
    """Asks the world without a verdict: what was signed so isn't good, and nothing is attested that wasn't."""
    rows = asked.octets.rows
    things = [thing for thing in world.at.values() if rows[thing] and thing.kind != "bad"]
    if not things:
        return walked
    thing = chance.choice(things)
    asked.unsay(chance.choice(rows[thing]))
    thing.kind = thing.kind if thing.kind == "router" else "bad"
    changed = asked.walk(world)
    assert_kept(changed, walked)
    return changed


def ask_cut_down(asked, world, walked):
    """Asks the judge of a good witness where nothing is left but the anchor and what its chain names at each of its points."""
    for uri, name, chain in sorted(walked.witnesses)[-1:]:
        manifests = [world.at[one].manifest for one in chain]
        named = {chain[0], *manifests, *(file for manifest in manifests for file in world.at[manifest].files)}
        for other in [at for at in world.at if at not in named]:
            asked.clear(world, other)
        assert judged(world, name, uri, chain) == f"yes {len(chain)}"
        asked.judge(world, name, uri, chain, f"yes {len(chain)}")


def ask_traces(chance, asked, world, walked):
    """Asks the judge of traces: yes exactly to witnesses of the walk, of which all points are read."""
    for name, uri, chain in traces(chance, world, walked):
        answer = judged(world, name, uri, chain)
        good = (uri, name, chain) in walked.witnesses
        assert answer == f"yes {len(chain)}" if good else answer.startswith("no ")
        asked.judge(world, name, uri, chain, answer)


def ask_by_chance(asked, count, seed):
    chance = random.Random(seed)
    for number in range(count):
        world = ladder_world(chance) if number % 2 else chance_world(chance)
        asked.world(world, chance)
        walked = asked.walk(world)
        ask_traces(chance, asked, world, walked)
        asked.reach(world, chance.sample(list(world.at), min(len(world.at), chance.randrange(1, 3))))
        for change in (ask_depth, ask_forged, ask_without, ask_unsaid):
            walked = change(chance, asked, world, walked)
        ask_cut_down(asked, world, walked)


def ask_by_hand(asked):
    for lines, questions_of in WORLDS.values():
        world = world_said(lines)
        asked.world(world)
        for question, answer in questions_of.items():
            what, *words = question.split()
            if what == "walk":
                asked.walk(world, answer)
            elif what == "judge":
                asked.judge(world, words[0], words[1], words[2:], answer)
            else:
                asked.ask(answer, what, ",".join(words))


def questions(q):
    """Asks about all worlds by hand, and some by chance."""
    asked = Asked(q)
    ask_by_hand(asked)
    ask_by_chance(asked, COUNT, 9286)


def main():
    parser = argparse.ArgumentParser(description="Worlds of certificates, their questions and answers.")
    parser.add_argument("program", help="the program of tests/program")
    parser.add_argument("count", nargs="?", type=int, default=200)
    parser.add_argument("seed", nargs="?", type=int, default=1)
    given = parser.parse_args()
    q = Questions()
    ask_by_chance(Asked(q), given.count, given.seed)
    passed, failed = asking.compare(pathlib.Path(given.program).resolve(), q.rows)
    print(f"{passed} passed, {failed} failed")
    sys.exit(1 if failed else 0)


if __name__ == "__main__":
    main()
