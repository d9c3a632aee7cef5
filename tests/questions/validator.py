#!/usr/bin/env python3
"""Questions to the validator's libraries: bundles, publication points, validated objects, walks, judges, commands.

    validator.py PROGRAM    asks the program of tests/program, in folders that are laid for it
    validator.py --count    tells how many questions there are
    validator.py --cases    writes cases of tests/cases, which tests/outside/cases.sh asks the built rpki_check

Bundles are written and read by tests/lib/rpki_bundles.py, repositories are made by tests/lib/rpki_repositories.py, and what is
printed of them is stated, or comes of tests/lib/rpki_model.py, a second reading of the rules in Python.
"""

import pathlib
import re
import sys

sys.dont_write_bytecode = True
sys.path.insert(0, str(pathlib.Path(__file__).resolve().parents[1] / "lib"))

import asking  # noqa: E402
import rpki_places  # noqa: E402
import rpki_questions  # noqa: E402
import rpki_walks  # noqa: E402
import rpki_worlds  # noqa: E402
import validator_bundles  # noqa: E402
import validator_commands  # noqa: E402
import validator_folders  # noqa: E402
from validator_asked import Questions  # noqa: E402

CASES = pathlib.Path(__file__).resolve().parents[1] / "cases"
TOPICS = (
    validator_bundles.questions,
    rpki_places.questions,
    validator_commands.questions,
    rpki_walks.walks,
    rpki_questions.questions,
    validator_folders.questions,
    rpki_worlds.questions,
)


def questions():
    """All questions beside their answers."""
    q = Questions()
    for topic in TOPICS:
        topic(q)
    return q.rows


def write_cases():
    """Writes the worked cases of walks; those of bundles alone were written by hand."""
    for name, world, lines in rpki_walks.worked_cases():
        if not re.fullmatch(r"[a-z0-9-]+", name):
            continue
        parts = {"args": b"check\n", "stdin": world.bundle(), "stderr": b"", "status": b"0\n"}
        parts["stdout"] = "".join(f"{line}\n" for line in lines).encode()
        for part, octets in parts.items():
            (CASES / f"{name}.{part}").write_bytes(octets)


if __name__ == "__main__":
    if sys.argv[1:] == ["--cases"]:
        write_cases()
    else:
        asking.main(questions, validator_folders.lay)
