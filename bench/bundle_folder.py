#!/usr/bin/env python3
"""Shows the time and memory that the built program takes to make a bundle of a folder, and how both grow.

    bundle_folder.py PROGRAM        (PROGRAM is crates/rpki_check/out/rpki_check)

Folders of 1,000, 10,000 and 100,000 files of 2 KiB are bundled five times each, of which the best time counts.
What is written is compared with the bundle that make_bundle.py makes of the same objects. GNU time, which has to
be installed, tells the peak of resident memory in one more run.

Targets: ten times the files take at most 12 times the time, where the smaller run took 20 ms or more, and the
peak is at most 2.5 times the files' octets, where these are 20 MB or more. Exits with 1 where one of them is
missed or an answer is wrong.
"""

import os
import subprocess
import sys
import tempfile
import time

sys.dont_write_bytecode = True

from make_bundle import bundle, object_at, octets_at, uri_at  # noqa: E402

RUNS = 5
FILE_SIZE = 2048
FILES = (1_000, 10_000, 100_000)

MOST_GROWTH = 12
SHORTEST_JUDGED = 0.020
MOST_MEMORY = 2.5
LEAST_JUDGED = 20_000_000

GNU_TIME = "/usr/bin/time"


def make(folder, files):
    """Makes a folder with so many objects; the bundle that it has to become."""
    objects = [(uri_at(number), octets_at(number, FILE_SIZE)) for number in range(files)]
    for uri, octets in objects:
        path = os.path.join(folder, uri.decode().replace("://", "/", 1))
        os.makedirs(os.path.dirname(path), exist_ok=True)
        with open(path, "wb") as file:
            file.write(octets)
    for name, text in (("moment", "20250101000000Z\n"), ("depth", "32\n")):
        with open(os.path.join(folder, name), "w") as file:
            file.write(text)
    return bundle(objects=[object_at(uri, octets) for uri, octets in objects])


def measure(program, files):
    """Seconds of the best run, peak resident memory in octets, and whether each answer was right."""
    with tempfile.TemporaryDirectory() as room:
        folder = os.path.join(room, "folder")
        answer = os.path.join(room, "answer")
        wanted = make(folder, files)
        best = None
        right = True
        for _ in range(RUNS):
            with open(answer, "wb") as out:
                start = time.perf_counter()
                status = subprocess.run([program, "bundle", folder], stdout=out).returncode
                seconds = time.perf_counter() - start
            best = seconds if best is None else min(best, seconds)
            with open(answer, "rb") as out:
                right = right and status == 0 and out.read() == wanted
        told = os.path.join(room, "peak")
        command = [GNU_TIME, "-f", "%M", "-o", told, program, "bundle", folder]
        subprocess.run(command, stdout=subprocess.DEVNULL)
        with open(told) as text:
            return best, int(text.read().split()[-1]) * 1024, right


def main():
    if len(sys.argv) != 2 or not os.access(GNU_TIME, os.X_OK):
        sys.exit(f"usage: bundle_folder.py PROGRAM, with {GNU_TIME}")
    program = os.path.abspath(sys.argv[1])
    failures = 0
    before = None
    print("    files |       MB |       ms |   MB/s |  peak MB | peak/octets | time")
    for files in FILES:
        seconds, peak, right = measure(program, files)
        octets = files * FILE_SIZE
        growth = "" if before is None else f"x {seconds / before:.1f}"
        if before is not None and before >= SHORTEST_JUDGED and seconds > MOST_GROWTH * before:
            growth += ", MISSED"
            failures += 1
        share = f"{peak / octets:.2f}"
        if octets >= LEAST_JUDGED and peak > MOST_MEMORY * octets:
            share += ", MISSED"
            failures += 1
        if not right:
            growth += ", WRONG ANSWER"
            failures += 1
        cells = (f"{files:>9,}", f"{octets / 1e6:>8.2f}", f"{seconds * 1000:>8.1f}", f"{octets / seconds / 1e6:>6.0f}", f"{peak / 1e6:>8.1f}", f"{share:>11}", growth)
        print(" | ".join(cells).rstrip(), flush=True)
        before = seconds
    print(f"{failures} targets missed or answers wrong" if failures else "all targets met")
    sys.exit(1 if failures else 0)


if __name__ == "__main__":
    main()
