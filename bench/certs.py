#!/usr/bin/env python3
"""Shows the time that reading certificates takes, beside the Rust crate's codec walking the same octets.

    certs.py [FOLDER [BCDER]]

In FOLDER, or in a temporary folder, a repository is made: copies of crates/certs_cert and what it stands on, with their
out/ where they have one, and the program certs.rt.in, which `rt run` proves and builds (a folder that is given is used
again). It reads certificates of authorities, some 1.5 KB each, with all extensions of the profile (RFC 6487 4.8): all
fields, their rules and what stands inside extensions. Keys and signatures are octets of RSA's sizes; what reads doesn't
look into them. Each number of certificates is read fifteen times, of which the best time counts.

BCDER is the folder that `dpkg -x` made of Debian's packages librust-bcder-dev, librust-bytes-dev and
librust-smallvec-dev: where it is given, certs.rs.in and certs_read.rs.in are built with it by cargo and run in turns with
the other. The first walks over all values and doesn't look into octet strings; the second reads what the proved program
reads, in Rust.

Targets: twice the certificates take at most 2.5 times the time, and so many of them at most twice the Rust crate's walk,
and no more than the same reading in Rust. Exits with 1 where one is missed or an answer is wrong.
"""

import ipaddress
import os
import subprocess
import sys
import tempfile

sys.dont_write_bytecode = True
import content  # noqa: E402
import copies  # noqa: E402
from repository import Authority, Held, StandIn  # noqa: E402

SIZES = (1_000, 2_000, 4_000)
RUNS = 15
MOST_GROWTH = 2.5
MOST_WALKS = 2.0
MOST_READINGS = 1.0

BENCH = os.path.dirname(os.path.abspath(__file__))
NAME = "certs_bench"
HEAD = """| certificates | KB each | ms | us each | growth | walk by bcder, ms | ratio | reading by bcder, ms | ratio |
|---:|---:|---:|---:|---|---:|---:|---:|---:|"""


def certificates(count):
    """So many certificates of authorities below one registry, one behind another."""
    everything = Held([ipaddress.ip_network("10.0.0.0/8")], [(64496, 64511)])
    registry = Authority("registry", StandIn([]), everything)
    found = []
    for number in range(count):
        networks = [ipaddress.ip_network((0x0A000000 + 65536 * (number % 200) + 512 * part, 24)) for part in range(24)]
        name = f"member-{number % 5000:04}"
        held = Held(networks, [(64496, 64500), (64502, 64502)])
        found.append(Authority(name, StandIn([]), held, registry).own_cert())
    return b"".join(found)


def build(folder):
    """Makes the repository, and proves and builds the program; its path."""
    crate = copies.make(folder, NAME, os.path.join(BENCH, "certs.rt.in"), ["bytes", "certs_cert"])
    content.run(["rt", "run"], crate)
    return os.path.join(crate, "out", NAME)


def run_once(program, octets):
    """The seconds, and the count and octets that were told."""
    told = subprocess.run([program], input=octets, capture_output=True, check=True).stdout.split()
    return int(told[0]) / 1e9, [int(word) for word in told[1:3]]


def measure(programs, count):
    """The octets, and of each program the seconds of the best run and whether all answers were right."""
    octets = certificates(count)
    runs = [[run_once(program, octets) for program in programs] for _ in range(RUNS)]
    best = [
        (min(seconds for seconds, _ in row), all(told == [count, len(octets)] for _, told in row)) for row in zip(*runs)
    ]
    return len(octets), best


def bench(folder, packages):
    """Makes, builds and measures; how many targets were missed or answers wrong."""
    programs = [build(folder)]
    if packages is not None:
        programs.append(content.build_rust(folder, packages, "certs.rs.in", "walk"))
        programs.append(content.build_rust(folder, packages, "certs_read.rs.in", "read", ["rust_cert"]))
    print(HEAD)
    failures, before = 0, None
    for count in SIZES:
        octets, best = measure(programs, count)
        seconds = best[0][0]
        factor = seconds / before if before else None
        failures += sum(not right for _, right in best) + (factor is not None and factor > MOST_GROWTH)
        cells = [f"{count:,}", f"{octets / count / 1e3:.2f}", f"{seconds * 1e3:.2f}", f"{seconds / count * 1e6:.1f}"]
        cells.append(f"x {factor:.2f}" if factor else "")
        for (other, _), most in zip(best[1:], (MOST_WALKS, MOST_READINGS)):
            ratio = seconds / other
            failures += ratio > most
            cells += [f"{other * 1e3:.2f}", f"{ratio:.2f}{' MISSED' if ratio > most else ''}"]
        print("| " + " | ".join(cells) + " |" + ("" if all(right for _, right in best) else " WRONG ANSWER"))
        before = seconds
    return failures


def main():
    if len(sys.argv) > 3:
        sys.exit("usage: certs.py [FOLDER [BCDER]]")
    packages = sys.argv[2] if len(sys.argv) == 3 else None
    if len(sys.argv) > 1:
        failures = bench(sys.argv[1], packages)
    else:
        with tempfile.TemporaryDirectory() as folder:
            failures = bench(folder, packages)
    print(f"{failures} targets missed or answers wrong" if failures else "all targets met")
    sys.exit(1 if failures else 0)


if __name__ == "__main__":
    main()
