#!/usr/bin/env python3
"""Asks a program of questions what is stored beside it, and compares its answers with those that are stored.

    stored.py NAME PROGRAM      (NAME is a crate with stdin and stdout, PROGRAM a build of it)

`rt ci` does the same with what it builds. Prints `N passed, M failed`, a line of the input being one test where all are right.
"""

import os
import pathlib
import sys

sys.dont_write_bytecode = True
sys.path.insert(0, str(pathlib.Path(__file__).resolve().parents[1] / "lib"))

from programs import CRATES, run_stored  # noqa: E402


def main():
    if len(sys.argv) != 3:
        sys.exit("usage: stored.py NAME PROGRAM")
    name, program = sys.argv[1], os.path.abspath(sys.argv[2])
    wrong = run_stored(name, program)
    if wrong:
        sys.exit(f"{name}: {wrong}\n0 passed, 1 failed")
    print(f"{max(1, (CRATES / name / 'stdin').read_bytes().count(10))} passed, 0 failed")


if __name__ == "__main__":
    main()
