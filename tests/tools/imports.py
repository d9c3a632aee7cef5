#!/usr/bin/env python3
"""Lists imports that nothing in their file uses: of proofs and definitions (`use`), and of code's clauses (`ghost use`).

    imports.py [--fix] [CRATE..]

A name counts as used where it stands anywhere else in the file, outside comments; an operator where its signs do. What is
passed on (`pub use`) and whole modules (`use .. as ..`, which is used by its own name) are looked at alike. With --fix the
names are taken out. Exits with 1 where an import is left that nothing uses.
"""

import argparse
import os
import re
import subprocess
import sys

ROOT = os.path.join(os.path.dirname(os.path.abspath(__file__)), os.pardir, os.pardir)
IMPORT = re.compile(r"^(\s*)(ghost )?use ([\w.\-]+?)(?:\.\{([^}]*)\}| as (\S+?))(;?)\s*$")
WORD = r"[\w'\-]"


def code_of(lines, path):
    """The file's lines without comments and without its imports."""
    sign = "//" if path.endswith(".rt") else "--"
    kept = []
    for line in lines:
        if IMPORT.match(line):
            continue
        at = line.find(sign)
        # Signs within a text are no comment.
        if at >= 0 and line[:at].count('"') % 2 == 0:
            line = line[:at]
        kept.append(line)
    return "\n".join(kept)


def is_used(name, code):
    """Whether a name stands in the code; of an operator such as ◌+◌ its signs."""
    if name in ("rules", "auto"):
        return True
    if "◌" in name:
        parts = [part for part in name.split("◌") if part]
        return all(part in code for part in parts) or not parts
    if not re.match(r"[\w]", name):
        return name in code
    return re.search(rf"(?<!{WORD}){re.escape(name)}(?!{WORD})", code) is not None


def imported(item):
    """The name by which an item of an import is known."""
    return item.split(" as ")[-1].strip()


def unused(path):
    """The imports of a file that nothing uses: pairs of a line's number and the items."""
    with open(path) as file:
        lines = file.read().split("\n")
    code = code_of(lines, path)
    found = []
    for number, line in enumerate(lines):
        match = IMPORT.match(line)
        if not match or line.lstrip().startswith("pub "):
            continue
        items = [match[5]] if match[5] else [it.strip() for it in match[4].split(",")]
        idle = [it for it in items if it and not is_used(imported(it), code)]
        if idle:
            found.append((number, idle))
    return lines, found


def without(line, idle):
    """The import without these items, or nothing where none is left."""
    match = IMPORT.match(line)
    left = [it.strip() for it in (match[4] or "").split(",") if it.strip() and it.strip() not in idle]
    if not left:
        return None
    return f"{match[1]}{match[2] or ''}use {match[3]}.{{{', '.join(left)}}}{match[6]}"


def main():
    parser = argparse.ArgumentParser(description=__doc__.split("\n")[0])
    parser.add_argument("--fix", action="store_true")
    parser.add_argument("crates", nargs="*")
    said = parser.parse_args()
    listed = subprocess.run(["git", "ls-files", "crates"], cwd=ROOT, capture_output=True, text=True, check=True)
    paths = [it for it in listed.stdout.split() if it.endswith((".rt", ".antt"))]
    if said.crates:
        paths = [it for it in paths if it.split("/")[1] in said.crates]
    count = 0
    for path in paths:
        whole = os.path.join(ROOT, path)
        if not os.path.exists(whole):
            continue
        lines, found = unused(whole)
        for number, idle in found:
            count += len(idle)
            print(f"{path}:{number + 1}: nothing uses {', '.join(idle)}")
        if said.fix and found:
            for number, idle in found:
                lines[number] = without(lines[number], idle)
            with open(whole, "w") as file:
                file.write("\n".join(it for it in lines if it is not None))
    print(f"{count} names in {len(paths)} files")
    sys.exit(1 if count and not said.fix else 0)


if __name__ == "__main__":
    main()
