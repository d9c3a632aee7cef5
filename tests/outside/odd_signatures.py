#!/usr/bin/env python3
"""Asks tools/verdicts.py which signatures it computes, with which keys, and of which objects.

    odd_signatures.py

What is compared comes from what was made, by bench/repository.py. Exits with 1 at the first answer that differs.
"""

import os
import random
import shutil
import sys
import tempfile

from odd_caches import AUTHORITIES, CUSTOMERS, ORIGINS, POINT, SIGNATURES, Room, lay, reasons, repository, same, tree

sys.dont_write_bytecode = True

import signed  # noqa: E402


class Other(repository.Key):
    """A key of another size or exponent than RFC 7935 3 has; the sizes are taken in turn."""

    kinds = []

    def make(self):
        from cryptography.hazmat.primitives.asymmetric import rsa
        from cryptography.hazmat.primitives.serialization import Encoding, PublicFormat

        size, exponent = self.kinds[len(self.kinds) > 1 and random.randrange(len(self.kinds))]
        self.pair = rsa.generate_private_key(public_exponent=exponent, key_size=size)
        return self.pair.public_key().public_bytes(Encoding.DER, PublicFormat.PKCS1)


def key_of(modulus, exponent):
    """The octets of an RSA key that nobody has (RFC 8017 A.1.1)."""
    return repository.sequence(repository.integer(modulus), repository.integer(exponent))


def keys(room):
    """Other sizes are read; too large ones, and what is no key, are told."""
    for kind in ((1024, 65537), (3072, 3), (4096, 65537)):
        Other.kinds = [kind]
        made = repository.Repository(1, 1, 0, 1, Other)
        cache = room.path("keys")
        lay(cache, made.objects)
        summary = room.told(cache)
        same(f"keys of {kind[0]:,} bits and exponent {kind[1]}", summary["verdicts"], 4 * 2 + 2)
        shutil.rmtree(cache)
    for octets, why in (
        (key_of((1 << 4103) + 1, 65537), "the key has more than 4,096 bits"),
        (key_of((1 << 2047) + 1, (1 << 64) + 1), "the key's exponent has more than 64 bits"),
        (repository.integer(7), "the key's modulus is missing"),
        (repository.sequence(repository.integer(7)), "the octets end within a value"),
    ):
        made = repository.Repository(1, 1, 0, 1)
        key = repository.StandIn([])
        key.octets, key.encoded = octets, repository.sequence(repository.RSA, repository.bits(octets))
        key.identifier = repository.hashlib.sha1(octets).digest()
        odd_one = repository.Authority("odd", key, repository.Held(inherits=True), made.anchor)
        cache = room.path("keys")
        lay(cache, made.objects | {odd_one.at: odd_one.own_cert()})
        summary = room.told(cache)
        same(f"a key: {why}", (reasons(summary, "not_good"), summary["verdicts"]), ({f"cer: {why}": 1}, 4 * 2 + 2 + 1))
        shutil.rmtree(cache)


def names(room):
    """What a file is, its octets tell: other extensions change no verdict. Octets after it don't, either."""
    cache = room.path("names")
    lay(cache, {uri.rpartition(".")[0] + f".x{number}": octets + b"after" * (number % 2)
                for number, (uri, octets) in enumerate(room.made.objects.items())})
    summary = room.told(cache)
    same("other extensions", (summary["verdicts"], summary["good"]), (SIGNATURES, {"other": SIGNATURES}))
    shutil.rmtree(cache)
    # (how many bits of a signature are unused isn't signed, and rpki_check doesn't ask; those have to be zero)
    at = room.made.anchor.at
    octets = next(octets for octets in iter(room.made.anchor.own_cert, None) if not octets[-1] & 1)
    lay(cache, room.made.objects | {at: octets[:-257] + b"\x01" + octets[-256:]})
    same("unused bits", room.told(cache)["verdicts"], SIGNATURES)
    shutil.rmtree(cache)


def parts_of(octets):
    """The values in a value in DER, each whole."""
    _, at, end = signed.header(octets, 0, len(octets))
    while at < end:
        _, _, stop = signed.header(octets, at, end)
        yield octets[at:stop]
        at = stop


def open_ended(tag, *parts):
    """A value that doesn't say its length (X.690 8.1.3.6)."""
    return bytes([tag, 0x80]) + b"".join(parts) + b"\0\0"


def in_pieces(tag, inner, octets):
    """A string in two pieces, one of them in pieces itself, with lengths of four octets."""
    half = len(octets) // 2
    pieces = [bytes([inner, 0x84]) + len(part).to_bytes(4, "big") + part for part in (octets[:half], octets[half:])]
    return open_ended(tag | 0x20, pieces[0], open_ended(inner | 0x20, pieces[1]))


def in_ber(octets):
    """The signed object in BER; what is signed stays as it is."""
    kind, data = parts_of(octets)
    version, digests, content, cert, signers = parts_of(next(parts_of(data)))
    (signer,) = parts_of(signers)
    number, sid, digest, attributes, algorithm, signature = parts_of(signer)
    tbs, signed_with, bits = parts_of(next(parts_of(cert)))
    unused = b"\x03\x01\x00"
    (head, text) = parts_of(content)
    (text,) = parts_of(text)
    place = [signed.header(each, 0, len(each))[1] for each in (sid, attributes, signature, bits, text)]
    attributes = b"\xa0\x84" + (len(attributes) - place[1]).to_bytes(4, "big") + attributes[place[1] :]
    cert = open_ended(0x30, tbs, signed_with, open_ended(0x23, unused, repository.bits(bits[place[3] + 1 :])))
    signer = [number, in_pieces(0x80, 0x04, sid[place[0] :]), digest, attributes, algorithm]
    signer = open_ended(0x30, *signer, in_pieces(0x04, 0x04, signature[place[2] :]))
    content = open_ended(0x30, head, open_ended(0xA0, in_pieces(0x04, 0x04, text[place[4] :])))
    data = open_ended(0x30, version, digests, content, open_ended(0xA0, cert), open_ended(0x31, signer))
    return open_ended(0x30, kind, open_ended(0xA0, data))


def relaxed(room):
    """Signed objects in BER have their verdicts where they may be in BER."""
    cache = room.path("ber")
    objects = [uri for uri in room.made.objects if uri.endswith((".roa", ".asa", ".mft"))]
    lay(cache, room.made.objects | {uri: in_ber(room.made.objects[uri]) for uri in objects})
    same("objects in BER", room.told(cache)["verdicts"], SIGNATURES - 2 * len(objects))
    room.told(room.cache)
    wanted = tree(room.out)["verdicts"]
    same("objects in BER, relaxed", room.told(cache, "--relaxed")["not_good"], [])
    got = tree(room.out)
    same("objects in BER: verdicts", (got["verdicts"] == wanted, got["relaxed"]), (True, b"true\n"))
    shutil.rmtree(cache)
    # (octets by chance have no verdict and end nothing)
    octets = in_ber(room.made.objects[objects[0]])
    chance = random.Random(1)
    for number in range(300):
        changed = bytearray(octets)
        for _ in range(3):
            changed[chance.randrange(len(octets))] = chance.randrange(256)
        lay(cache, {f"rsync://{repository.HOST}/x/{number}.roa": bytes(changed[: chance.randrange(len(octets))])})
    same("objects in BER by chance", room.told(cache, "--relaxed")["objects"], 300)
    shutil.rmtree(cache)


COPIES = 10_000


def one_identifier(room):
    """As many certificates with one identifier, and as many objects signed with it: each signature is computed once."""
    cache, made = room.path("many"), room.made
    lay(cache, made.objects)
    folder = os.path.join(cache, POINT, "many")
    os.makedirs(folder)
    cert = made.anchor.own_cert()
    at = cert.index(made.anchor.key.octets) + 100
    roa = made.objects[f"rsync://{repository.HOST}/repository/a0/o0.roa"]
    for number in range(COPIES):
        with open(os.path.join(folder, f"{number}.cer"), "wb") as file:
            file.write(cert[:at] + number.to_bytes(4, "big") + cert[at + 4 :])
        with open(os.path.join(folder, f"{number}.roa"), "wb") as file:
            file.write(roa[:-4] + number.to_bytes(4, "big"))
    summary = room.told(cache)
    found = summary["signatures"]
    same("one identifier: objects", summary["objects"], len(made.objects) + 2 * COPIES)
    same("one identifier: operations", found["computed"], SIGNATURES + 3 * COPIES)
    same("one identifier: at most twice the objects", found["computed"] <= 2 * summary["objects"], True)
    # (the certificate in each of the objects is good)
    same("one identifier: verdicts", (summary["verdicts"], found["bad"]), (SIGNATURES, 2 * COPIES))
    shutil.rmtree(cache)


def known(room):
    """Verdicts of an earlier run: what stands there isn't computed again, and all else is."""
    first, other = room.path("first"), room.path("other")
    room.told(room.cache)
    shutil.rmtree(first, ignore_errors=True)
    os.rename(room.out, first)
    summary = room.told(room.cache, "--known", first)
    same("known: all", (summary["signatures"]["known"], summary["signatures"]["computed"]), (SIGNATURES, 0))
    same("known: the folder", tree(room.out) == tree(first), True)
    summary = room.told(room.cache, "--known", room.out)
    same("known: by OUT itself", (summary["signatures"]["known"], tree(room.out) == tree(first)), (SIGNATURES, True))
    shutil.copytree(room.cache, other)
    name = os.path.join(other, POINT, "a0", "o0.roa")
    with open(name, "r+b") as file:
        file.seek(-1, os.SEEK_END)
        last = file.read(1)
        file.seek(-1, os.SEEK_END)
        file.write(bytes([last[0] ^ 1]))
    found = room.told(other, "--known", first)["signatures"]
    same("known: a changed octet", (found["computed"], found["bad"], found["good"]), (1, 1, SIGNATURES - 1))
    for text in (b"", b"no verdicts\n", open(os.path.join(first, "verdicts"), "rb").read()[:-1]):
        with open(os.path.join(first, "verdicts"), "wb") as file:
            file.write(text)
        found = room.told(room.cache, "--known", first)["signatures"]
        same(f"known: {len(text)} octets", (found["known"], found["good"]), (0, SIGNATURES))
    found = room.told(room.cache, "--known", room.path("nothing"))
    same("known: no folder", found["verdicts"], SIGNATURES)
    same("known: no folder: told", "no verdicts of an earlier run" in found["notes"][0], True)
    shutil.rmtree(other)


def jobs(room):
    """Any number of processes writes the same."""
    room.told(room.cache, "--jobs", "1")
    wanted = tree(room.out)
    for count in ("2", "7"):
        room.told(room.cache, "--jobs", count)
        same(f"{count} processes", tree(room.out) == wanted, True)


def main():
    made = repository.Repository(AUTHORITIES, ORIGINS, CUSTOMERS, 2)
    with tempfile.TemporaryDirectory() as folder:
        room = Room(folder, made)
        keys(room)
        names(room)
        relaxed(room)
        known(room)
        jobs(room)
        one_identifier(room)


if __name__ == "__main__":
    main()
