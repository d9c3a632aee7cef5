"""Questions about publication points, for tests/questions/rpki_places.py: what stands at the point of each accepted chain of a world.

The answers are tests/lib/rpki_model.py's. A question names the chain by its URIs, the anchor's first. Of the worked cases and
of worlds by chance the shortest few are asked whose point stands, by how much is listed there, and the shortest few that the
second reading refuses at each of its places.
"""

import collections
import hashlib

import rpki_chance
import rpki_model
import rpki_walks
from rpki_readers import KINDS, Manifest, Refused, counted, front, join, lookup_key, members, read_bundle, serial

ALL = {kind: [(0, last)] for kind, last in KINDS.items()}


def shown(octets):
    return octets.hex() if len(octets) <= 200 else f"{len(octets)} octets {hashlib.sha256(octets).hexdigest()}"


def place_of(error):
    """Where the second reading of a point ended, in the functions `point` and `unheld` or in a reader that they called."""
    trace, place = error.__traceback__, None
    while trace is not None:
        if trace.tb_frame.f_code.co_name in ("point", "unheld", "join", "front"):
            place = trace.tb_lineno
        trace = trace.tb_next
    return place


def serials(octets):
    """The serial numbers on a revocation list, in its order."""
    _, _, _, _, _, *entries, _ = counted(counted(front(octets), 3)[0], 6, 7)
    return [serial(counted(entry, 2)[0]) for entry in members(entries[0], 16)] if entries else []


def stands(walk, issuer, held):
    """Where the revocation list stands, the serial numbers on it, that of the manifest's certificate, and the files; and where
    the second reading ended."""
    try:
        point = walk.point(issuer, held)
    except Refused as error:
        return "none", place_of(error)
    manifest = Manifest(walk.held[lookup_key(issuer.place("manifest"))], walk.bundle.strict)
    listed = serials(dict(point.files)[point.crl_key])
    words = [manifest.cert.crl_uri.decode(), *map(str, listed), str(manifest.cert.serial)]
    for (name, _), (_, octets) in zip(manifest.files, point.files, strict=True):
        words += [join(issuer.place("repository"), name).decode(), shown(octets)]
    return " ".join(words), (min(len(point.files), 4), min(len(listed), 2))


def asked(octets):
    """Of each accepted chain, by what it holds and whatever that is: the question, its answer, and where that ended."""
    walk = rpki_model.Walk(read_bundle(octets))
    for _, chain, issuer, held in walk.accepted:
        uris = b",".join(chain).decode()
        for question, holds in (("point", held), ("unheld", ALL)):
            answer, place = stands(walk, issuer, holds)
            yield (question, uris, octets.hex()), answer, (question, place)


def bundles(chances):
    for _, world, _ in rpki_walks.worked_cases():
        yield world.bundle()
    for seed in range(chances):
        octets = rpki_chance.bundle_by_chance(seed)
        if read_bundle(octets) is not None:
            yield octets


def points(ask, chances=400, few=2):
    """Asks the few shortest questions of each kind, or all of them where `few` is None."""
    kinds = collections.defaultdict(dict)
    for octets in bundles(chances):
        for words, answer, kind in asked(octets):
            kinds[kind][words] = answer
    for rows in kinds.values():
        for words in sorted(rows, key=lambda words: len(words[-1]))[:few]:
            ask(rows[words], *words)
