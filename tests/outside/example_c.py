#!/usr/bin/env python3
"""Builds the static library `crates/example_c` and its callers in C and in Rust, runs both, and compares what they print
with what Python says: tests/outside/example_c.py [FOLDER]

It prints each command that it runs. FOLDER gets the programs; without it they are made in a temporary folder. A C
compiler is wanted (CC, or `cc`); without `rustc` the caller in Rust is left out.
"""

import os
import pathlib
import shlex
import shutil
import subprocess
import sys
import tempfile

ROOT = pathlib.Path(__file__).resolve().parents[2]
CRATE = ROOT / "crates" / "example_c"
NUMBERS = [0, 1, 127, 128, 255, 256, 1000, 32767, 32768, 2**32, 2**63 - 1, 2**63, 2**64 - 1]

# Octets in DER, and the number that they begin with: X.690 8.3 (INTEGER), 8.1.3 and 10.1 (the fewest octets of length).
OCTETS = [
    ("020100", 0),
    ("0201000500", 0),
    ("0209008000000000000000", 2**63),
    ("", None),
    ("02", None),
    ("0200", None),
    ("020203", None),
    ("0201ff", None),
    ("02020001", None),
    ("02810101", None),
    ("0209010000000000000000", None),
    ("030100", None),
    ("2203020100", None),
]


def of_number(number):
    content = number.to_bytes(number.bit_length() // 8 + 1, "big")
    return (bytes([2, len(content)]) + content).hex()


def run(*words, **options):
    print("$ " + shlex.join(str(word) for word in words), flush=True)
    return subprocess.run([str(word) for word in words], check=True, **options)


def kit():
    page = subprocess.run(["rt", "doc"], check=True, capture_output=True, text=True).stdout
    return pathlib.Path(page.strip()).parent


def main():
    run("rt", "lib", "--jobs", "1", cwd=CRATE)
    library = CRATE / "out" / "libexample_c.a"
    heap = kit() / "c" / "liblibc_c.a"
    arguments = [str(n) for n in NUMBERS] + ["x" + digits for digits, _ in OCTETS]
    wanted = [of_number(n) for n in NUMBERS] + ["none" if n is None else str(n) for _, n in OCTETS]
    with tempfile.TemporaryDirectory() as temporary:
        out = pathlib.Path(sys.argv[1] if len(sys.argv) > 1 else temporary)
        callers = [out / "example_c"]
        source = ROOT / "examples" / "c" / "main.c"
        run(os.environ.get("CC", "cc"), "-Wall", "-Wextra", "-O2", "-o", callers[0], source, library, heap)
        if shutil.which("rustc"):
            callers.append(out / "example_rust")
            source = ROOT / "examples" / "rust" / "main.rs"
            links = ["-C", f"link-arg={library}", "-C", f"link-arg={heap}"]
            run("rustc", "--edition", "2024", "-O", "-o", callers[1], source, *links)
        failed = 0
        for caller in callers:
            seen = subprocess.run([caller, *arguments], capture_output=True, text=True).stdout.split("\n")[:-1]
            wrong = [row for row in zip(arguments, seen, wanted) if row[1] != row[2]]
            failed += bool(wrong) or len(seen) != len(wanted)
            print(f"{caller.name}: {len(wanted) - len(wrong)} of {len(wanted)} answers are right {wrong}")
    sys.exit(1 if failed else 0)


main()
