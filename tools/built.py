"""The programs that the tools run: which there are, and whether they were built with their proof.

A proved program stands at crates/NAME/out/NAME, where `rt run` and `rt ci` leave it. Where there is none, the one at
bin/NAME is taken, which tools/build.py makes; bin/built.json says whether with its proof.
"""

import collections
import hashlib
import json
import os
import sys

HERE = os.path.dirname(os.path.abspath(__file__))
BUILT = "built.json"
PIECE = 1 << 20
# So many digits of a sum are shown.
SHOWN = 12


class Program(collections.namedtuple("Program", "name path is_proved")):
    """A program: `is_proved` is None where that isn't known."""

    def is_there(self):
        return os.path.isfile(self.path) and os.access(self.path, os.X_OK)

    def text(self):
        said = {True: "proved", False: "built without its proof", None: "not known whether proved"}[self.is_proved]
        return f"{self.path} ({said})"

    def as_dict(self):
        return {"path": self.path, "proved": self.is_proved, "sha256": digest_of(self.path) if self.is_there() else None}


def top():
    """The folder above the tools, by the path by which they were called, where links may lead to them."""
    called = getattr(sys.modules.get("__main__"), "__file__", None)
    folder = os.path.dirname(os.path.abspath(called)) if called else HERE
    return os.path.dirname(folder if os.path.isdir(folder) and os.path.samefile(folder, HERE) else HERE)


def find(name, path=None):
    """The program of that name, or the one at the path that the operator gave."""
    proved, own = os.path.join(top(), "crates", name, "out", name), os.path.join(top(), "bin")
    if path is None:
        path = proved if os.access(proved, os.X_OK) else os.path.join(own, name)
    path = os.path.abspath(path)
    if os.path.realpath(path) == os.path.realpath(proved):
        return Program(name, path, True)
    told = told_beside(path).get(name)
    is_proved = told.get("proved") is True if isinstance(told, dict) else None
    return Program(name, path, False if is_proved is None and os.path.dirname(path) == own else is_proved)


def told_beside(path):
    """What the file beside a program says of programs, or nothing."""
    try:
        with open(os.path.join(os.path.dirname(path), BUILT)) as file:
            told = json.load(file)
    except (OSError, ValueError):
        return {}
    return told if isinstance(told, dict) else {}


def digest_of(path):
    """A file's SHA-256 digest, in hexadecimal."""
    digest = hashlib.sha256()
    with open(path, "rb") as file:
        while piece := file.read(PIECE):
            digest.update(piece)
    return digest.hexdigest()


def tools_digest():
    """One digest of all tools, by which a copy of them is known."""
    digest = hashlib.sha256()
    for name in sorted(name for name in os.listdir(HERE) if name.endswith(".py")):
        digest.update(f"{name} {digest_of(os.path.join(HERE, name))}\n".encode())
    return digest.hexdigest()


def version(tool, programs):
    """What `--version` prints."""
    lines = [f"{tool} of the tools with SHA-256 {tools_digest()[:SHOWN]}"]
    for one in programs:
        found = f"SHA-256 {digest_of(one.path)[:SHOWN]}" if one.is_there() else "not there"
        lines.append(f"{one.name}: {one.text()}, {found}")
    return "\n".join(lines)
