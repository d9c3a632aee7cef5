#!/usr/bin/env python3
"""Shows what the digests that the rules ask for take of the time in which 1,000 objects are walked, and beside it what a Rust
program takes to read the objects' certificates.

    chrt -f 1 digests.py FOLDER [BCDER]

The objects are those of walks.py's smallest bundle. Of each the pieces are written down that a validator digests by SHA-256:
the file, whose digest the manifest has; the content, whose digest the attributes have; and of both signatures (the
certificate's and that over the attributes) key, message and signature, since a verdict is found by their digests. An
authority's key is digested once for all that it signs. By SHA-1 each certificate's key is digested, which its key
identifier has to be (RFC 6487 4.8.2). In FOLDER digests.rt.in is proved and built by `rt run`, with the kit's `sha1` and
`sha2`, which `rpki_digests` has too. BCDER is as in certs.py: where it is given, certs_read.rs.in reads the certificates
inside the objects, with their fields, extensions and rules, in Rust, and certs.rs.in walks over them and over all objects by
the Rust crate's codec. Each is run fifteen times, of which the best time counts. Exits with 1 where an answer is wrong.
"""

import hashlib
import os
import subprocess
import sys

sys.dont_write_bytecode = True
import content  # noqa: E402
import copies  # noqa: E402
from repository import Authority, Repository, StandIn  # noqa: E402
from walks import AUTHORITIES, CUSTOMERS, ORIGINS  # noqa: E402

RUNS = 15
KEYS = 16
# What digests.rt.in is told of the digest function, by the function's name in Python.
FUNCTIONS = {"sha1": b"\1", "sha256": b"\2"}
BENCH = os.path.dirname(os.path.abspath(__file__))
NAME = "digests_bench"


class Recorded(StandIn):
    """Octets in a key's place, which write down what is digested for each of their signatures."""

    pieces = []
    is_digested = False

    def sign(self, message):
        signature = super().sign(message)
        Recorded.pieces += [message, signature] if self.is_digested else [self.encoded, message, signature]
        return signature


def record():
    """The pieces for SHA-1 and for SHA-256, the certificates inside objects, and the objects."""
    sign_object, issue = Authority.sign_object, Authority.issue
    inside, certificates, keys = [], [], []

    def signing(self, kind, octets, *others):
        Recorded.pieces.append(octets)
        inside.append(True)
        made = sign_object(self, kind, octets, *others)
        inside.pop()
        return made

    def issuing(self, key, extensions):
        made = issue(self, key, extensions)
        self.key.is_digested = True
        keys.append(key.octets)
        if inside:
            certificates.append(made)
        return made

    Authority.sign_object, Authority.issue = signing, issuing
    repository = Repository(AUTHORITIES[0], ORIGINS, CUSTOMERS, KEYS, Recorded)
    listed = [octets for at, octets in repository.objects.items() if at != repository.anchor.at and at[-4:] != ".mft"]
    return {"sha1": keys, "sha256": [*Recorded.pieces, *listed]}, certificates, list(repository.objects.values())


def best(program, octets, answer):
    """The seconds of the best run, and whether each told what is right."""
    runs = []
    for _ in range(RUNS):
        told = subprocess.run([program], input=octets, capture_output=True, check=True).stdout.split()
        runs.append((int(told[0]) / 1e9, [int(word) for word in told[1:3]] == answer))
    return min(seconds for seconds, _ in runs), all(right for _, right in runs)


def beside(folder, packages, objects, certificates, right):
    """Prints what Rust takes for the certificates, and for a walk over all objects; the seconds for the certificates."""
    read = content.build_rust(folder, packages, "certs_read.rs.in", "read", ["rust_cert"])
    walk = content.build_rust(folder, packages, "certs.rs.in", "walk")
    joined, whole = b"".join(certificates), b"".join(objects)
    rows = [
        (f"{len(certificates)} certificates, read in Rust", *best(read, joined, [len(certificates), len(joined)])),
        ("the same certificates, walked over in Rust", *best(walk, joined, [len(certificates), len(joined)])),
        (f"all {len(objects)} objects, walked over in Rust", *best(walk, whole, [len(objects), len(whole)])),
    ]
    for what, seconds, _ in rows:
        print(f"{what}: {seconds * 1e3:.2f} ms, {seconds * 1e6 / len(objects):.1f} ms for 1,000 objects")
    return rows[0][1], right and all(fine for _, _, fine in rows)


def digested(program, function, pieces, count):
    """Prints what the pieces take by a digest function; the seconds, and whether each answer was right."""
    octets = b"".join(len(piece).to_bytes(4, "big") + piece for piece in pieces)
    answer = [len(pieces), sum(hashlib.new(function, piece).digest()[0] for piece in pieces)]
    seconds, right = best(program, FUNCTIONS[function] + octets, answer)
    blocks = sum((len(piece) + 8) // 64 + 1 for piece in pieces)
    rate = f"{64e-6 * blocks / seconds:.0f} MB/s"
    print(f"{function}: {len(pieces)} pieces, {blocks} blocks, {blocks / count:.1f} an object, {rate}")
    print(f"{function}: {seconds * 1e3:.2f} ms, {seconds * 1e6 / count:.1f} ms for 1,000 objects")
    return seconds, right


def main():
    if len(sys.argv) not in (2, 3):
        sys.exit("usage: digests.py FOLDER [BCDER]")
    folder = sys.argv[1]
    pieces, certificates, objects = record()
    crate = copies.make(folder, NAME, os.path.join(BENCH, "digests.rt.in"), ["sha1", "sha2"])
    content.run(["rt", "run"], crate)
    program = os.path.join(crate, "out", NAME)
    taken = [digested(program, function, pieces[function], len(objects)) for function in FUNCTIONS]
    total, right = sum(seconds for seconds, _ in taken), all(fine for _, fine in taken)
    print(f"both: {total * 1e6 / len(objects):.1f} ms for 1,000 objects")
    if len(sys.argv) == 3:
        seconds, right = beside(folder, sys.argv[2], objects, certificates, right)
        print(f"digests and certificates: {(total + seconds) * 1e6 / len(objects):.1f} ms for 1,000 objects")
    if not right:
        print("WRONG ANSWER")
    sys.exit(0 if right else 1)


if __name__ == "__main__":
    main()
