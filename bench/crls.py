#!/usr/bin/env python3
"""Shows the time that building, reading and searching a revocation list take, and how it grows with its entries.

    chrt -f 1 crls.py [FOLDER]

In FOLDER, or in a temporary folder, a repository is made: copies of crates/certs_crl and what it stands on, with their
out/, and the program crls.rt.in, which `rt run` proves and builds (a folder that is given is used again). A list has entries
with even serial numbers, the greatest first. `build` makes it of entries, signs it with a stand-in and writes it, `read`
reads it again, `search` looks for a number that isn't there through all entries, `keep` keeps the numbers aside, `find` looks
for 1,000 numbers among these, of which some are there. Each size is run fifteen times, of which the best time counts. What
each tells is compared with the right answer, and the most looks for one number with the binary digits of their count.

Target: twice the entries take at most 2.5 times the time, a number is found by at most as many looks as the count of entries
has binary digits, 17 of 100,000, and a search takes no memory (which needs a C compiler, as tests/outside/growths.py does). Exits with 1
where one is missed or an answer is wrong.
"""

import os
import subprocess
import sys
import tempfile

sys.dont_write_bytecode = True
sys.path.insert(0, os.path.join(os.path.dirname(os.path.abspath(__file__)), os.pardir, "tests", "lib"))
import copies  # noqa: E402
import growth  # noqa: E402
import refusals  # noqa: E402

SIZES = (50_000, 100_000, 200_000)
RUNS = 15
MOST_GROWTH = 2.5
SOUGHT = 1000
NAMES = ("build", "read", "search", "keep", "find")

BENCH = os.path.dirname(os.path.abspath(__file__))
NAME = "crls_bench"
HEAD = """| operation | entries |      ms | ns an entry | growth |
|---|---:|---:|---:|---|"""


def tlv_len(content):
    """How many octets a value has whose content has so many."""
    return content + 2 + (0 if content < 128 else (content.bit_length() + 7) // 8)


def integer_len(number):
    return 2 + number.bit_length() // 8 + 1


def octets_of(count):
    """How many octets the list has (RFC 5280 5.1)."""
    entries = sum(tlv_len(integer_len(2 * at) + 15) for at in range(1, count + 1))
    algorithm, issuer, both = 15, 53, 2 + 2 + (2 + 5 + 2 + 24) + (2 + 5 + 2 + 3)
    body = tlv_len(3 + algorithm + issuer + 15 + 15 + tlv_len(entries) + both)
    return tlv_len(body + algorithm + 4)


def answers(count):
    sought = [at * (count // SOUGHT + 1) for at in range(SOUGHT)]
    found = sum(1 for number in sought if number % 2 == 0 and 2 <= number <= 2 * count)
    return {"build": [octets_of(count)], "read": [count], "search": [0], "keep": [0], "find": [found]}


def build(folder):
    """Makes the repository, and proves and builds the program; its path."""
    others = ["bcder", "certs_crl", "certs_key", "anyhow", "bytes"]
    crate = copies.make(folder, NAME, os.path.join(BENCH, "crls.rt.in"), others)
    done = subprocess.run(["rt", "run", "--", "1000"], cwd=crate, capture_output=True, text=True)
    if done.returncode != 0:
        sys.exit(done.stdout + done.stderr)
    return os.path.join(crate, "out", NAME)


def run_once(program, count):
    """Of each operation the nanoseconds, and what it told."""
    told = subprocess.run([program, str(count)], capture_output=True, text=True, check=True).stdout
    rows = [line.split() for line in told.splitlines()]
    return {name: (int(nanos), [int(word) for word in rest]) for name, nanos, *rest in rows}


def right(name, count, told):
    """Whether that is the right answer, and found by few enough looks."""
    if name == "find":
        *told, most = told
        if most > count.bit_length():
            return False
    return told == answers(count)[name]


def measure(program, count):
    """Of each operation the seconds of the best run, and whether all answers were right."""
    runs = [run_once(program, count) for _ in range(RUNS)]
    return {
        name: (min(run[name][0] for run in runs) / 1e9, all(right(name, count, run[name][1]) for run in runs))
        for name in NAMES
    }


def search_growths(program):
    """How many growths of memory a search through all entries takes: each tells of itself by a `+` before the next line."""
    with tempfile.TemporaryDirectory() as folder:
        environment = {"LD_PRELOAD": refusals.compiled(folder), "GROWTHS_FD": "1"}
        done = subprocess.run([program, str(SIZES[0])], capture_output=True, text=True, check=True, env=environment)
    (line,) = [line for line in done.stdout.splitlines() if line.lstrip("+").startswith("search")]
    return len(line) - len(line.lstrip("+"))


def cells(name, count, row):
    """The cells in front of the growth; none stands after it."""
    seconds, _ = row
    return [f"{name:<9}", f"{count:>7,}", f"{seconds * 1e3:>7.3f}", f"{seconds * 1e9 / count:>11.1f}"], []


def bench(folder):
    """Makes, builds and measures; how many targets were missed or answers wrong."""
    return show(build(folder))


def show(program):
    """Measures the built program; how many targets were missed or answers wrong."""
    rows = {count: measure(program, count) for count in SIZES}
    failures = growth.print_rows(HEAD, NAMES, SIZES, rows, MOST_GROWTH, cells)
    grown = search_growths(program)
    print(f"growths of memory while all entries are searched: {grown}{' MISSED' if grown else ''}")
    return failures + (grown > 0)


def main():
    if len(sys.argv) > 2:
        sys.exit("usage: crls.py [FOLDER]")
    if len(sys.argv) == 2:
        failures = bench(sys.argv[1])
    else:
        with tempfile.TemporaryDirectory() as folder:
            failures = bench(folder)
    print(f"{failures} targets missed or answers wrong" if failures else "all targets met")
    sys.exit(1 if failures else 0)


if __name__ == "__main__":
    main()
