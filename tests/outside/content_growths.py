#!/usr/bin/env python3
"""Refuses each growth of memory in turn, one a run, while `bcder_content` skips and captures values.

    content_growths.py

In a temporary folder a repository is made of crates/bcder_content with what it stands on and the program
content_growths.rt.in, which is made without a proof (`programs.py`). The program itself tells what is wrong: a refused
growth has to be answered `Memory`, a refused skip leaves its content failed, and a refused capture or part leaves all
as it was. Each growth is refused alone, by `refuse_growth.c`, which is preloaded.

Prints `N passed, M failed`, a run being one test; exits with 1 where one failed.
"""

import os
import pathlib
import sys
import tempfile

HERE = os.path.dirname(os.path.abspath(__file__))
sys.dont_write_bytecode = True
sys.path[:0] = [os.path.join(HERE, os.pardir, os.pardir, "bench"), os.path.join(HERE, os.pardir, "lib")]

import copies  # noqa: E402
from programs import tried  # noqa: E402
from refusals import compiled, run  # noqa: E402

NAME = "content_growths"


def make(folder):
    """Makes the repository; the program's folder."""
    source = os.path.join(HERE, f"{NAME}.rt.in")
    return copies.make(folder, NAME, source, ["bcder_content", "bcder_source"])


def main():
    if len(sys.argv) > 1:
        sys.exit("usage: content_growths.py")
    with tempfile.TemporaryDirectory() as folder:
        room = pathlib.Path(folder) / "room"
        room.mkdir()
        program, shim = tried(pathlib.Path(make(folder)), room), compiled(folder)
        outcome, growths = run(program, shim, [], b"", {})
        outcomes = {"nothing refused": outcome}
        for at in range(1, len(growths) + 1):
            outcomes[f"growth {at}"] = run(program, shim, [], b"", {"REFUSE_AT": str(at)})[0]
    wrong = {name: outcome for name, outcome in outcomes.items() if outcome != (0, b"", b"")}
    for name, outcome in wrong.items():
        print(f"{name}: {outcome}")
    print(f"{len(growths)} growths")
    print(f"{len(outcomes) - len(wrong)} passed, {len(wrong)} failed")
    sys.exit(1 if wrong or not growths else 0)


if __name__ == "__main__":
    main()
