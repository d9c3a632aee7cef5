#!/usr/bin/env python3
"""Writes docs/DEFINITIONS.md: the definitions that the contract of `run` rests on, lowest first, with what their comments say.

    definitions.py [--check]
    definitions.py NAME..

With --check nothing is written, and the exit status is 1 where the page isn't what would be written. Of names every
definition of that name is printed, from whichever crate, with its file, its comment and its text.
"""

import os
import sys

sys.path.insert(0, os.path.join(os.path.dirname(os.path.abspath(__file__)), os.pardir, "lib"))

import antt
import promise

PAGE = os.path.join(antt.TOP, "docs", "DEFINITIONS.md")
HEAD = """# The definitions that a printed line rests on

What `run` is proved to print says no more than these definitions. Each is short, in the standard's terms, and never the
code's loop. They stand here in the order in which they are made: **what a definition uses stands before it** (of two that
use each other the first has both). So this page is read from its top by whoever wants nothing unexplained;
`PROMISE.md` reads the same definitions from the contract down, and `PROVED.md` says which contract carries what.

Each word has what its comment says in its file; words without a comment of their own stand with the one before. The text of a
definition, of these and of all others, is printed by `tests/tools/definitions.py NAME`. `tests/tools/definitions.py`
writes this page.
"""


def rows(module, names):
    """The words of a file that are wanted, each with the comment that it stands under."""
    kept, comment = [], None
    for word in antt.module_at(module).declared.values():
        if word.comment or comment is None:
            comment = word.comment
            fresh = True
        if word.name not in names:
            continue
        if fresh or not kept:
            kept.append(([word.name], comment))
        else:
            kept[-1][0].append(word.name)
        fresh = False
    return kept


def cell(text):
    return text.replace("|", "\\|")


def page():
    files = {}
    for module, name in promise.ordered(promise.Promise(*promise.CALL).words):
        files.setdefault(module, []).append(name)
    parts, crate = [HEAD], None
    for module, names in files.items():
        if module[0] != crate:
            crate = module[0]
            parts.append(f"\n## `{crate}`\n")
        own = antt.module_at(module).own
        parts.append(f"\n`{'/'.join(module[2:])}.antt`: {own}\n" if own else f"\n`{'/'.join(module[2:])}.antt`\n")
        parts.append("\n| Word | Says |\n|---|---|\n")
        for words, text in rows(module, set(names)):
            parts.append(f"| {', '.join(f'`{it}`' for it in words)} | {cell(text)} |\n")
    return "".join(parts)


def everything():
    """All modules of definitions, crate by crate."""
    for crate in antt.crates():
        folder = os.path.join(antt.TOP, "crates", crate, "specs")
        for at, folders, files in os.walk(folder):
            folders.sort()
            for name in sorted(files):
                if name.endswith(".antt") and name != "Lib.antt":
                    below = os.path.relpath(os.path.join(at, name), folder).removesuffix(".antt")
                    yield antt.module_at((crate, "specs", *below.split("/")))


def show(names):
    """Prints each definition of these names; how many names have none."""
    found = {name: [] for name in names}
    for module in everything():
        for name in names:
            if name in module.declared:
                found[name].append(module.declared[name])
    for name, words in found.items():
        for word in words:
            print(f"crates/{'/'.join(word.module)}.antt:{word.line}")
            if word.comment:
                print(f"-- {word.comment}")
            print(f"{word.text}\n")
        if not words:
            print(f"{name}: no definition has that name", file=sys.stderr)
    return sum(not words for words in found.values())


def main():
    words = sys.argv[1:]
    if words == ["--check"]:
        with open(PAGE) as file:
            sys.exit(0 if file.read() == page() else "docs/DEFINITIONS.md isn't what tests/tools/definitions.py writes")
    if words and words[0].startswith("-"):
        sys.exit("usage: definitions.py [--check] | NAME..")
    if words:
        sys.exit(1 if show(words) else 0)
    with open(PAGE, "w") as file:
        file.write(page())


if __name__ == "__main__":
    main()
