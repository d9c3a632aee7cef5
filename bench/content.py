#!/usr/bin/env python3
"""Shows the time that reading, skipping and capturing values take, and how it grows with their number.

    content.py [FOLDER [BCDER]]

In FOLDER, or in a temporary folder, a repository is made: copies of crates/bcder_content and what
it stands on, with their out/ where they have one, and the program content.rt.in, which `rt run` proves and
builds (a quarter of an hour from nothing; a folder that is given is used again). Small values are a SEQUENCE OF
INTEGERs of one octet each, read by take_opt_u64 and by skip_one; one deep value is as many SEQUENCEs in each other,
skipped with a visitor and captured. All are read from a slice, in DER. Each size is run fifteen times, of which the
best time counts; making the octets isn't measured. What each reading tells is compared with the right answer. On a
machine with other work the whole is run as `chrt -f 1 python3 content.py ..`, so that no run is interrupted.

BCDER is the folder that `dpkg -x` made of Debian's packages librust-bcder-dev, librust-bytes-dev and
librust-smallvec-dev: where it is given, content.rs.in is built with it by cargo, run in turns with the other, and its
times stand beside.

Targets: twice the values take at most 2.5 times the time, and each reading at most 1.2 times that of the Rust crate.
Exits with 1 where one is missed or an answer is wrong.
"""

import os
import shutil
import subprocess
import sys
import tempfile

sys.dont_write_bytecode = True
import copies  # noqa: E402
import growth  # noqa: E402

SIZES = (1_000_000, 2_000_000, 4_000_000)
RUNS = 15
MOST_GROWTH = 2.5
MOST_RATIO = 1.2

BENCH = os.path.dirname(os.path.abspath(__file__))
NAME = "content_bench"
HEAD = """| reading      |    values |    MB |     ms | MB/s | growth | bcder, ms | ratio |
|---|---:|---:|---:|---:|---|---:|---:|"""
READINGS = ("take_opt_u64", "skip_one", "skip", "capture_one")

CARGO = """[package]
name = "content_bench"
version = "0.0.0"
edition = "2021"

[dependencies]
bcder = {{ path = "{registry}/{bcder}" }}
bytes = {{ path = "{registry}/{bytes}" }}

[patch.crates-io]
bytes = {{ path = "{registry}/{bytes}" }}
smallvec = {{ path = "{registry}/{smallvec}" }}
"""


def header(length):
    """How many octets the header of a SEQUENCE with such a content has."""
    return 2 if length < 128 else 2 + (length.bit_length() + 7) // 8


def deep(levels):
    """How many octets so many SEQUENCEs in each other have."""
    length = 0
    for _ in range(levels):
        length += header(length)
    return length


def answers(size):
    """Of each reading the octets that there are to read, and what is told of them."""
    small = 3 * size + header(3 * size)
    nested = deep(size)
    return {
        "take_opt_u64": (small, sum(number % 128 for number in range(size))),
        "skip_one": (small, size),
        "skip": (nested, size),
        "capture_one": (nested, nested),
    }


def write(path, text):
    with open(path, "w") as file:
        file.write(text)


def run(command, folder):
    """Runs a command that has to succeed."""
    done = subprocess.run(command, cwd=folder, capture_output=True, text=True)
    if done.returncode != 0:
        sys.exit(done.stdout + done.stderr)


def build(folder):
    """Makes the repository, and proves and builds the program; its path."""
    crate = copies.make(folder, NAME, os.path.join(BENCH, "content.rt.in"), ["bcder_content", "bcder_source"])
    run(["rt", "run", "--", "1"], crate)
    return os.path.join(crate, "out", NAME)


def build_rust(folder, packages, source="content.rs.in", name="rust", modules=(), dependencies=""):
    """Builds a program in Rust over Debian's crates, in a folder of that name, with modules that stand in files of their own
    and with more lines of Cargo.toml, where {registry} stands for where Debian has its crates; its path."""
    registry = os.path.join(os.path.abspath(packages), "usr", "share", "cargo", "registry")
    found = {name.rsplit("-", 1)[0]: name for name in os.listdir(registry)}
    crate = os.path.join(folder, name)
    os.makedirs(os.path.join(crate, "src"), exist_ok=True)
    write(os.path.join(crate, "Cargo.toml"), (CARGO + dependencies).format(registry=registry, **found))
    shutil.copy(os.path.join(BENCH, source), os.path.join(crate, "src", "main.rs"))
    for module in modules:
        shutil.copy(os.path.join(BENCH, module + ".rs.in"), os.path.join(crate, "src", module + ".rs"))
    run(["cargo", "build", "--release", "--offline"], crate)
    return os.path.join(crate, "target", "release", NAME)


def run_once(program, size):
    """Of each reading the nanoseconds, and the octets read with what was told."""
    told = subprocess.run([program, str(size)], capture_output=True, text=True, check=True).stdout
    rows = [line.split() for line in told.splitlines()]
    return {name: (int(nanos), (int(octets), int(answer))) for name, nanos, octets, answer in rows}


def measure(programs, size):
    """Of each program and reading the octets, the seconds of the best run, and whether all answers were right.

    The programs take turns, so that other work on the machine slows each as much."""
    wanted = answers(size)
    runs = [[run_once(program, size) for program in programs] for _ in range(RUNS)]
    return [
        {
            name: (
                wanted[name][0],
                min(run[name][0] for run in of_program) / 1e9,
                all(run[name][1] == wanted[name] for run in of_program),
            )
            for name in READINGS
        }
        for of_program in zip(*runs)
    ]


def cells_beside(others):
    """What makes the cells of a row, where the other program's times stand behind the growth."""

    def cells(name, size, row):
        octets, seconds, _ = row
        front = [f"{name:<12}", f"{size:>9,}", f"{octets / 1e6:>5.2f}", f"{seconds * 1e3:>6.1f}"]
        front.append(f"{octets / seconds / 1e6:>4.0f}")
        if others is None:
            return front, ["", ""]
        other = others[size][name][1]
        missed = " MISSED" if seconds > MOST_RATIO * other else ""
        return front, [f"{other * 1e3:.1f}", f"{seconds / other:.2f}{missed}"]

    return cells


def slower(rows, others):
    """How many readings take longer than they may beside the other program."""
    if others is None:
        return 0
    return sum(rows[size][name][1] > MOST_RATIO * others[size][name][1] for size in SIZES for name in READINGS)


def bench(folder, packages):
    """Makes, builds and measures; how many targets were missed or answers wrong."""
    programs = [build(folder)]
    if packages is not None:
        programs.append(build_rust(folder, packages))
    measured = {size: measure(programs, size) for size in SIZES}
    rows = {size: found[0] for size, found in measured.items()}
    others = {size: found[1] for size, found in measured.items()} if packages is not None else None
    failures = growth.print_rows(HEAD, READINGS, SIZES, rows, MOST_GROWTH, cells_beside(others))
    return failures + slower(rows, others)


def main():
    if len(sys.argv) > 3:
        sys.exit("usage: content.py [FOLDER [BCDER]]")
    packages = sys.argv[2] if len(sys.argv) == 3 else None
    if len(sys.argv) > 1:
        failures = bench(sys.argv[1], packages)
    else:
        with tempfile.TemporaryDirectory() as folder:
            failures = bench(folder, packages)
    print(f"{failures} targets missed or answers wrong" if failures else "all targets met")
    sys.exit(1 if failures else 0)


if __name__ == "__main__":
    main()
