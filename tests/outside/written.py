#!/usr/bin/env python3
"""Whether what is stored of questions and answers is what scripts of tests/questions write: of the examples, and of tests/cases.

The scripts run in a copy of what they stand on, and each file that they write is compared with the stored one. Prints
`N passed, M failed`, a file being one test.
"""

import filecmp
import pathlib
import shutil
import subprocess
import sys
import tempfile

TOP = pathlib.Path(__file__).resolve().parents[2]
PARTS = ("tests/questions", "tests/lib", "bench", "crates/rpki_rules/src", "crates/certs_extension/src", "crates/objects_payload/src")
# Each command with the folders that it writes into.
COMMANDS = {
    ("examples.py",): tuple(f"crates/{path.parent.name}" for path in sorted(TOP.glob("crates/example_*/stdout"))),
    ("validator.py", "--cases"): ("tests/cases",),
}


def written(room):
    """The paths of all files that the commands write in the room."""
    for part in PARTS:
        shutil.copytree(TOP / part, room / part, ignore=shutil.ignore_patterns("__pycache__"))
    for (script, *words), folders in COMMANDS.items():
        for folder in folders:
            (room / folder).mkdir(parents=True)
        subprocess.run([sys.executable, "-B", room / "tests" / "questions" / script, *words], check=True)
        for folder in folders:
            found = [path.relative_to(room) for path in sorted((room / folder).iterdir())]
            yield from found or [pathlib.Path(folder, "nothing")]


def main():
    with tempfile.TemporaryDirectory() as there:
        room = pathlib.Path(there)
        paths = list(written(room))
        is_same = lambda path: (TOP / path).is_file() and (room / path).is_file() and filecmp.cmp(TOP / path, room / path, shallow=False)
        others = [path for path in paths if not is_same(path)]
    for path in others:
        print(f"{path} isn't what a script writes")
    print(f"{len(paths) - len(others)} passed, {len(others)} failed")
    sys.exit(1 if others else 0)


if __name__ == "__main__":
    main()
