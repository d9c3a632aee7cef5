#!/usr/bin/env python3
"""Shows the processor time and the memory that the built program takes to walk repositories, and how both grow.

    walks.py PROGRAM [--rsa] [--beside DEBIAN]        (PROGRAM is crates/rpki_check/out/rpki_check)
    walks.py PROGRAM.. --instructions [WORDS]         how many instructions each takes for the smallest of the bundles

Bundles of some 1,000, 10,000 and 100,000 objects are read from a file as standard input, several times each: a trust anchor
over 10, 102 and 1,020 authorities, each with 90 ROAs, 5 ASPAs, a revocation list and a manifest, and two verdicts or more
for each object. `repository.py` makes them, in a process of its own, with octets of the sizes of RSA's in the place of keys
and signatures; with --rsa it makes real ones, which takes long and changes nothing for the program. Each answer is compared
with the right one. Time is the processor time of the run, the kernel's for it included, and the least of the runs counts:
so other work on the machine changes little. GNU time, where it is installed, tells the peak of resident memory in one more
run.

With --beside the same bundles are walked in Rust too, in turns: by walk.rs.in over the Rust crate `bcder` and the crates
`sha1` and `sha2`, as Debian has them (0.6.1, 0.10.1 and 0.10.5). DEBIAN is a folder in which these packages are unpacked: the
librust-*-dev of bcder, bytes, smallvec, sha1, sha2, digest, block-buffer, generic-array, crypto-common, typenum, cpufeatures,
libc, cfg-if, rand-core, subtle and version-check.

With --instructions `valgrind --tool=callgrind` counts those of a run of `check`, or of WORDS (`--instructions refusals`, of
rpki_ask), on the bundle of some 1,000 objects, which other work on the machine doesn't change.

Targets: 1,000 objects take at most 25 ms; ten times the objects take at most 11 times the time; and the peak is at most 2.2
times the bundle's size, where that is 10 MB or more. Exits with 1 where one of them is missed or an answer is wrong.
"""

import argparse
import collections
import filecmp
import math
import os
import re
import subprocess
import sys
import tempfile

sys.dont_write_bytecode = True

import content  # noqa: E402
from bench import has_gnu_time, peak_of  # noqa: E402

AUTHORITIES = (10, 102, 1_020)
RUNS = {10: 40, 102: 10, 1_020: 5}
ORIGINS, CUSTOMERS = 90, 5
# The anchor's certificate, list and manifest; of each authority the same and its objects.
OBJECTS = {authorities: 3 + authorities * (3 + ORIGINS + CUSTOMERS) for authorities in AUTHORITIES}

# Of 1,000 objects; of bundles that have more, growth tells.
MOST_SECONDS = 0.025
MOST_GROWTH = 11
MOST_MEMORY = 2.2
LEAST_JUDGED = 10_000_000

# The crates that sha1 and sha2 stand on, by their names in Debian's registry.
BELOW = "block-buffer cfg-if cpufeatures crypto-common digest generic-array libc rand_core subtle typenum version_check"
# Lines of Cargo.toml in which content.py fills in the folders.
PATCHES = "".join(f'{name} = {{{{ path = "{{registry}}/{{{name}}}" }}}}\n' for name in BELOW.split())
NAMED = "".join(f'\n[dependencies.{name}]\npath = "{{registry}}/{{{name}}}"\n' for name in ("sha1", "sha2"))

MAKER = os.path.join(os.path.dirname(os.path.abspath(__file__)), "repository.py")

# One bundle's figures: `size` and `peak` in octets, `seconds` of processor time of the best run, `beside` those in Rust,
# None where it isn't walked in Rust.
Row = collections.namedtuple("Row", "objects size seconds beside peak right")


def make(folder, authorities, is_rsa):
    """Makes the bundle; its path and that of its lines."""
    counts = [f"--authorities={authorities}", f"--origins={ORIGINS}", f"--customers={CUSTOMERS}"]
    options = ["--bundle", *counts, *([] if is_rsa else ["--stand-ins"])]
    subprocess.run([sys.executable, MAKER, folder, *options], check=True, stderr=subprocess.DEVNULL)
    return os.path.join(folder, "bundle"), os.path.join(folder, "lines")


def run_once(program, bundle, answer):
    """One run's seconds of processor time, peak resident memory in octets, and status."""
    actions = [
        (os.POSIX_SPAWN_OPEN, 0, bundle, os.O_RDONLY, 0),
        (os.POSIX_SPAWN_OPEN, 1, answer, os.O_WRONLY | os.O_CREAT | os.O_TRUNC, 0o600),
    ]
    child = os.posix_spawn(program, [program, "check"], os.environ, file_actions=actions)
    _, status, usage = os.wait4(child, 0)
    return usage.ru_utime + usage.ru_stime, usage.ru_maxrss * 1024, status


def measure(programs, folder, authorities, is_rsa):
    """The figures of the first program, with those of another beside it where there are two."""
    bundle, lines = make(folder, authorities, is_rsa)
    answer = os.path.join(folder, "answer")
    best, peaks, right = [math.inf] * len(programs), [], True
    for _ in range(RUNS[authorities]):
        for index, program in enumerate(programs):
            seconds, peak, status = run_once(program, bundle, answer)
            right = right and status == 0 and filecmp.cmp(answer, lines, shallow=False)
            filecmp.clear_cache()
            best[index] = min(best[index], seconds)
            if index == 0:
                peaks.append(peak)
    peak = peak_of(programs[0], folder, bundle) if has_gnu_time() else max(peaks)
    beside = best[1] if len(best) > 1 else None
    return Row(OBJECTS[authorities], os.path.getsize(bundle), best[0], beside, peak, right)


def judged(what, value, most, form):
    """What is said of a figure against its target, and whether it is missed."""
    return f"{what} {value:{form}} (at most {most:{form}}{', MISSED' if value > most else ''})", value > most


def notes(row, before):
    """What is said of a row, and how many targets it misses."""
    said = []
    if before:
        said.append(judged("time x", row.seconds / before.seconds, MOST_GROWTH, ".1f"))
    else:
        said.append(judged("ms for 1,000 objects", row.seconds * 1e6 / row.objects, MOST_SECONDS * 1000, ".1f"))
    if row.size >= LEAST_JUDGED:
        said.append(judged("peak x", row.peak / row.size, MOST_MEMORY, ".2f"))
    if not row.right:
        said.append(("WRONG ANSWER", True))
    return "; ".join(text for text, _ in said), sum(missed for _, missed in said)


def cells(row):
    """The figures of a row."""
    found = [f"{row.objects:,}", f"{row.size / 1e6:.2f}"]
    found += [f"{row.seconds * 1000:.1f}", f"{row.seconds * 1e6 / row.objects:.1f}"]
    if row.beside:
        found += [f"{row.beside * 1000:.1f}", f"{row.seconds / row.beside:.2f}"]
    return [*found, f"{row.peak / 1e6:.1f}", f"{row.peak / row.size:.2f}"]


def instructions(programs, words):
    """Prints how many instructions a run of each takes, and how they compare with the first one's; 1 where an answer is wrong."""
    first, wrong = None, 0
    with tempfile.TemporaryDirectory() as folder:
        bundle, lines = make(folder, AUTHORITIES[0], False)
        with open(lines, "rb") as file:
            right = file.read() if words == "check" else b""
        for program in programs:
            command = ["valgrind", "--tool=callgrind", "--callgrind-out-file=/dev/null", os.path.abspath(program), *words.split()]
            with open(bundle, "rb") as file:
                done = subprocess.run(command, stdin=file, capture_output=True)
            count = int(re.search(rb"Collected : (\d+)", done.stderr)[1])
            first = first or count
            wrong |= done.stdout != right
            said = ", WRONG ANSWER" if done.stdout != right else ""
            print(f"{program}: {count / 1e6:.1f} million instructions for {OBJECTS[AUTHORITIES[0]]} objects, x {count / first:.4f}{said}")
    return int(wrong)


def main():
    parser = argparse.ArgumentParser(description=__doc__, formatter_class=argparse.RawDescriptionHelpFormatter)
    parser.add_argument("programs", nargs="+", metavar="PROGRAM")
    parser.add_argument("--instructions", nargs="?", const="check", metavar="WORDS", help="count the instructions of such a run")
    parser.add_argument("--rsa", action="store_true", help="real keys and signatures")
    parser.add_argument("--beside", metavar="DEBIAN", help="the same walk in Rust, over crates that are unpacked there")
    given = parser.parse_args()
    if given.instructions:
        return instructions(given.programs, given.instructions)
    if len(given.programs) > 1:
        parser.error("one program is measured at a time")
    with tempfile.TemporaryDirectory() as folder:
        programs = [os.path.abspath(given.programs[0])]
        if given.beside:
            modules = ["rust_cert", "rust_object"]
            programs.append(content.build_rust(folder, given.beside, "walk.rs.in", "walk", modules, PATCHES + NAMED))
        return compare(programs, given.rsa)


def compare(programs, is_rsa):
    """Prints a row for each size; 1 where a target is missed or an answer wrong, else 0."""
    heads = ["objects", "bundle MB", "ms", "ms / 1,000 objects", *(["ms in Rust", "ratio"] if len(programs) > 1 else [])]
    heads += ["peak MB", "peak / bundle", "against the target"]
    print(f"| {' | '.join(heads)} |")
    print(f"|{'---:|' * (len(heads) - 1)}---|", flush=True)
    failures, before = 0, None
    for authorities in AUTHORITIES:
        with tempfile.TemporaryDirectory() as folder:
            row = measure(programs, folder, authorities, is_rsa)
        said, missed = notes(row, before)
        print(f"| {' | '.join(cells(row))} | {said} |", flush=True)
        failures, before = failures + missed, row
    print(f"{failures} targets missed or answers wrong" if failures else "all targets met")
    return 1 if failures else 0


if __name__ == "__main__":
    sys.exit(main())
