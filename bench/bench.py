#!/usr/bin/env python3
"""Shows the time and memory that the built program takes, and how both grow with the bundle.

    bench.py PROGRAM        (PROGRAM is crates/rpki_check/out/rpki_check)

Bundles of locators, of objects (2 KiB each) and of verdicts, each with 1,000, 10,000 and 100,000 entries
(locators and verdicts with 1,000,000 too), and one bundle of 256 MiB are read from a file as standard input,
five times each, of which the best time counts. Each answer is compared with the right one. GNU time, where it
is installed, tells the peak of resident memory in one more run. Without it small peaks can't be told, since a
child of this process starts out as a copy of it; `<=` stands before these.

Targets: ten times the entries take at most 12 times the time, where the smaller run took 20 ms or more; the
bundle of 256 MiB is read at 150 MB/s or more, with a peak of at most 2.2 times its size. Exits with 1 where
one of them is missed or an answer is wrong.
"""

import collections
import filecmp
import os
import subprocess
import sys
import tempfile
import time

sys.dont_write_bytecode = True

from make_bundle import object_at, octets_at, uri_at  # noqa: E402

RUNS = 5
OBJECT_SIZE = 2048
LARGE = 256 * 1024 * 1024
LARGE_OBJECTS = LARGE // len(object_at(uri_at(0), octets_at(0, OBJECT_SIZE))) + 1
THOUSANDS = (1_000, 10_000, 100_000)
LISTS = {
    "locators": THOUSANDS + (1_000_000,),
    "objects": THOUSANDS,
    "verdicts": THOUSANDS + (1_000_000,),
}

MOST_GROWTH = 12
SHORTEST_JUDGED = 0.020
LEAST_SPEED = 150e6
MOST_MEMORY = 2.2

GNU_TIME = "/usr/bin/time"

MAKER = os.path.join(os.path.dirname(os.path.abspath(__file__)), "make_bundle.py")

# One bundle's figures: `size` and `peak` in octets, `seconds` of the best run.
Row = collections.namedtuple("Row", "kind entries size seconds peak right")


def make(folder, kind, entries):
    """Makes the bundle in a process of its own, so that this one stays small; its path and that of its lines."""
    paths = [os.path.join(folder, name) for name in ("bundle", "lines")]
    options = [f"--{kind}={entries}", f"--object-size={OBJECT_SIZE}", f"--output={paths[0]}", f"--lines={paths[1]}"]
    subprocess.run([sys.executable, MAKER, *options], check=True)
    return paths


def run_once(program, bundle, answer):
    """One run's seconds, peak resident memory in octets, and status."""
    actions = [
        (os.POSIX_SPAWN_OPEN, 0, bundle, os.O_RDONLY, 0),
        (os.POSIX_SPAWN_OPEN, 1, answer, os.O_WRONLY | os.O_CREAT | os.O_TRUNC, 0o600),
    ]
    start = time.perf_counter()
    child = os.posix_spawn(program, [program, "check"], os.environ, file_actions=actions)
    _, status, usage = os.wait4(child, 0)
    return time.perf_counter() - start, usage.ru_maxrss * 1024, status


def peak_of(program, folder, bundle):
    """One run's peak resident memory in octets, as GNU time tells it."""
    told = os.path.join(folder, "peak")
    with open(bundle, "rb") as octets:
        command = [GNU_TIME, "-f", "%M", "-o", told, program, "check"]
        subprocess.run(command, stdin=octets, stdout=subprocess.DEVNULL)
    with open(told) as text:
        return int(text.read().split()[-1]) * 1024


def measure(program, folder, kind, entries):
    """The figures of the bundle that has so many entries of that kind, and no others."""
    bundle, lines = make(folder, kind, entries)
    answer = os.path.join(folder, "answer")
    runs = []
    right = True
    for _ in range(RUNS):
        seconds, peak, status = run_once(program, bundle, answer)
        right = right and status == 0 and filecmp.cmp(answer, lines, shallow=False)
        filecmp.clear_cache()
        runs.append((seconds, peak))
    best = min(seconds for seconds, _ in runs)
    most = peak_of(program, folder, bundle) if has_gnu_time() else max(peak for _, peak in runs)
    return Row(kind, entries, os.path.getsize(bundle), best, most, right)


def has_gnu_time():
    """Whether GNU time is installed."""
    return os.access(GNU_TIME, os.X_OK)


def peak_floor(program, folder):
    """Up to which peak nothing is told: that of a run that takes next to nothing, and a little more."""
    return 0 if has_gnu_time() else measure(program, folder, "locators", 0).peak * 1.05


def growth_note(row, before):
    """What is said of a row against the one with a tenth of its entries, and whether the target is missed."""
    if before is None:
        return "", False
    factor = row.seconds / before.seconds
    if before.seconds < SHORTEST_JUDGED:
        return f"time x {factor:.1f} (too short to judge)", False
    missed = factor > MOST_GROWTH
    return f"time x {factor:.1f} (at most {MOST_GROWTH}{', MISSED' if missed else ''})", missed


def large_note(row):
    """What is said of the large bundle, and whether a target is missed."""
    slow = row.size / row.seconds < LEAST_SPEED
    fat = row.peak > MOST_MEMORY * row.size
    speed = f"at least {LEAST_SPEED / 1e6:.0f} MB/s{', MISSED' if slow else ''}"
    memory = f"peak at most {MOST_MEMORY} x{', MISSED' if fat else ''}"
    return f"{speed}; {memory}", slow or fat


def peak_text(row, floor, before):
    """The peak in MB, against the bundle's size and against the row before; `floor` is what can't be told apart."""
    if row.peak <= floor:
        return f"<= {floor / 1e6:.1f}", "", ""
    grown = f"x {row.peak / before.peak:.1f}" if before and before.peak > floor else ""
    return f"{row.peak / 1e6:.1f}", f"{row.peak / row.size:.2f}", grown


def print_row(row, floor, before, note):
    """One line of the table."""
    peak, share, grown = peak_text(row, floor, before)
    if not row.right:
        note = f"WRONG ANSWER {note}"
    cells = (
        row.kind.ljust(8),
        f"{row.entries:>9,}",
        f"{row.size / 1e6:>8.2f}",
        f"{row.seconds * 1000:>8.1f}",
        f"{row.size / row.seconds / 1e6:>6.0f}",
        f"{peak:>8}",
        f"{share:>7}",
        f"{grown:>7}",
        note,
    )
    print(" | ".join(cells).rstrip(), flush=True)


def print_titles():
    """The table's first two lines."""
    titles = ("list    ", "  entries", "      MB", "      ms", "  MB/s", " peak MB", "peak/in", " growth", "against the target")
    print(" | ".join(titles))
    print("-|-".join("-" * len(title) for title in titles), flush=True)


def bench_list(program, folder, floor, kind):
    """Prints the rows of one list; how many targets were missed."""
    failures = 0
    before = None
    for entries in LISTS[kind]:
        row = measure(program, folder, kind, entries)
        note, missed = growth_note(row, before)
        print_row(row, floor, before, note)
        failures += missed + (not row.right)
        before = row
    return failures


def bench_large(program, folder, floor):
    """Prints the row of the large bundle; how many targets were missed."""
    row = measure(program, folder, "objects", LARGE_OBJECTS)
    note, missed = large_note(row)
    print_row(row._replace(kind="256 MiB"), floor, None, note)
    return missed + (not row.right)


def main():
    if len(sys.argv) != 2:
        sys.exit("usage: bench.py PROGRAM")
    program = os.path.abspath(sys.argv[1])
    with tempfile.TemporaryDirectory() as folder:
        floor = peak_floor(program, folder)
        print_titles()
        failures = sum(bench_list(program, folder, floor, kind) for kind in LISTS)
        failures += bench_large(program, folder, floor)
    print(f"{failures} targets missed or answers wrong" if failures else "all targets met")
    sys.exit(1 if failures else 0)


if __name__ == "__main__":
    main()
