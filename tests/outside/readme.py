#!/usr/bin/env python3
"""Runs README's commands from a validator's cache to routers, and those of docs/OPERATING.md, as they stand there.

    readme.py PROGRAM [ASKER]    (PROGRAM is crates/rpki_check/out/rpki_check, or another build of it)

The commands are the indented lines below a heading. They run by `sh` in a new folder, where `tools`, `examples` and `tests` lie as
they do at the top of a clone, without `bin` on README's page, which has a step that builds, and with the built program in `bin`
on the other. What they write is compared with `examples/cache.lines` and `examples/cache.json`, which `examples/make_cache.py`
states, but for the JSON's `metadata.proved`, which tells of the program. Exits with 1 where something differs.

`tools/build.py` takes what tests/run has built, which is why that hands ASKER on; where there is nothing, it builds for minutes.
"""

import json
import os
import shutil
import subprocess
import sys
import tempfile

TOP = os.path.join(os.path.dirname(os.path.abspath(__file__)), os.pardir, os.pardir)
# Each page with its heading, how many commands stand below it, whether the first of them builds, and what they write: its name
# among the examples.
PAGES = (
    ("README.md", "### From a validator's cache to routers\n", 2, True, {"routes.json": "cache.json"}),
    ("docs/OPERATING.md", "## The three programs by themselves\n", 3, False, {"lines": "cache.lines", "routes.json": "cache.json"}),
)


def commands(page, heading):
    """The indented lines below the heading, up to the next one."""
    with open(os.path.join(TOP, page)) as file:
        section = file.read().partition(heading)[2].partition("\n#")[0]
    return [line.strip() for line in section.splitlines() if line.startswith("    ")]


def lay(room, program):
    """The folders that the commands name, as they lie in a clone; `bin` where there is a program."""
    # (the tools look beside the folder where they lie, not where a link leads to)
    shutil.copytree(os.path.join(TOP, "tools"), os.path.join(room, "tools"), ignore=shutil.ignore_patterns("__pycache__"))
    for name in ("examples", "tests"):
        os.symlink(os.path.join(TOP, name), os.path.join(room, name))
    if program is not None:
        os.mkdir(os.path.join(room, "bin"))
        os.symlink(program, os.path.join(room, "bin", "rpki_check"))


def without_proved(octets):
    """What is written, but for what JSON tells of the program."""
    if not octets.startswith(b"{"):
        return octets
    made = json.loads(octets)
    made["metadata"].pop("proved", None)
    return made


def read(*names):
    with open(os.path.join(*names), "rb") as file:
        return file.read()


def run(page, heading, count, is_building, written, program):
    """Runs a page's commands and looks at what they wrote."""
    lines = commands(page, heading)
    if len(lines) != count:
        sys.exit(f"{page} has {len(lines)} commands there, not {count}")
    with tempfile.TemporaryDirectory() as room:
        lay(room, None if is_building else program)
        for line in lines:
            print(line, flush=True)
            if subprocess.run(["sh", "-ec", line], cwd=room).returncode:
                sys.exit("the command failed")
        for name, wanted in written.items():
            made, right = read(room, name), read(TOP, "examples", wanted)
            if made != right and not (is_building and without_proved(made) == without_proved(right)):
                sys.exit(f"{name} isn't examples/{wanted}")
        if is_building:
            looked_at(room)
    print(f"{page}: {len(written)} files as they have to be", flush=True)


def looked_at(room):
    """What the step that builds has left, and what the file tells of the program."""
    built = json.loads(read(room, "bin", "built.json"))
    if sorted(os.listdir(os.path.join(room, "bin"))) != ["built.json", "rpki_ask", "rpki_check"]:
        sys.exit("bin has other things than built.json and both programs")
    if json.loads(read(room, "routes.json"))["metadata"]["proved"] is not built["rpki_check"]["proved"]:
        sys.exit("metadata.proved isn't what built.json says")


def main():
    if len(sys.argv) not in (2, 3):
        sys.exit(__doc__)
    for page in PAGES:
        run(*page, os.path.abspath(sys.argv[1]))


if __name__ == "__main__":
    main()
