#!/usr/bin/env python3
"""Checks that docs/PROMISE.md names every definition that the contract of `run` rests on.

    promise.py [--list]

It begins with the names in the clauses of `run`, and follows them through lines of `use` and what crates pass on, down to
the toolchain's library: to definitions, Rust types and constants that these name, ghost members of traits, and words of that
library.
Each definition has to stand in signs of code in a section whose heading names its file, as `rpki_rules/specs/Chains`, all
else somewhere. What the page quotes of definitions has to stand in them. With --list the definitions are printed, by file,
lowest first.
"""

import os
import re
import sys

sys.path.insert(0, os.path.join(os.path.dirname(os.path.abspath(__file__)), os.pardir, "lib"))

import antt
import contracts

PAGE = os.path.join(antt.TOP, "docs", "PROMISE.md")
CALL = "rpki_validator", "runs", "run"


class Promise:
    """What the contract of a call rests on."""

    def __init__(self, crate, module, name):
        path = contracts.is_at(crate, module)
        call = next(it for it in contracts.calls_of(path) if it.name == name and not it.owner)
        self.uses = contracts.ghost_uses(path)
        self.words, self.types, self.ghosts = [], [], {}
        first = [self.located(it) for clause in call.clauses for it in antt.tokens(clause)]
        bounds = dict(re.findall(r"(\w+): (\w+)", call.signature.split("(")[0]))
        for clause in call.clauses:
            for parameter, member in re.findall(r"\b([A-Z]\w*)\.(\w+)", clause):
                found = contracts.ghosts_of(bounds.get(parameter, "")).get(member)
                if found:
                    self.ghosts[member] = os.path.relpath(found[0], os.path.join(antt.TOP, "crates"))
        keys = [what for kind, what in filter(None, first) if kind == "word"]
        self.words, rust = antt.closure(keys)
        rust += [what for kind, what in filter(None, first) if kind == "rust"]
        self.types = sorted({plain(names) for names in rust})
        met = [*filter(None, first), *(it for key in self.words for it in antt.names_in(antt.word_at(key)))]
        self.library = sorted({what.split(".")[-1] for kind, what in met if kind == "outside" and what.startswith("Rattle.")})

    def located(self, token):
        """What a name of a clause means, by the file's lines `ghost use`."""
        head = token.split(".")[0]
        return antt.locate(self.uses[head] + token.removeprefix(head)) if head in self.uses else None


def plain(names):
    """A Rust type or constant by its crate and its name: without its module and its variants."""
    names = names[: names.index("TheVariants")] if "TheVariants" in names else names
    return names[0], names[-1]


def ordered(words):
    """Definitions such that each stands behind all that it uses: files lowest first, and each file from its top."""
    files, order = {}, []
    for module, name in words:
        files.setdefault(module, set()).add(name)
    uses = {module: set() for module in files}
    for module, names in files.items():
        for name in names:
            uses[module].update(what[0] for kind, what in antt.names_in(antt.word_at((module, name))) if kind == "word" and what[0] in files)
    place = {crate: at for at, crate in enumerate(antt.crates())}
    left = sorted(files, key=lambda it: (place[it[0]], it))
    while left:
        module = next((it for it in left if not uses[it] - set(order) - {it}), left[0])
        left.remove(module)
        order.append(module)
    return [(module, word.name) for module in order for word in antt.module_at(module).declared.values() if word.name in files[module]]


def sections(text):
    """The page's sections: what files the heading names, and the words that stand in signs of code."""
    found = []
    for part in re.split(r"^## ", text, flags=re.M):
        heading, _, body = part.partition("\n")
        files, crate = set(), None
        for item in re.findall(r"`([\w/.]+)`", heading):
            parts = item.split("/")
            crate = parts[0] if "specs" in parts or "src" in parts else crate
            if crate:
                files.add((crate, *parts[1:]) if parts[0] == crate else (crate, "specs", *parts))
        words = set()
        for code in re.findall(r"`([^`\n]+)`", body):
            words.update(antt.tokens(code))
        found.append((files, words))
    return found


def is_named(module, name, parts):
    """Whether a section that has the file names the word."""
    return any(name in words and any(module[: len(file)] == file for file in files) for files, words in parts)


def missing(promise, text):
    parts = sections(text)
    everywhere = set().union(*(words for _, words in parts))
    found = [f"{'/'.join(module)}: {name}" for module, name in promise.words if not is_named(module, name, parts)]
    found += [f"{crate}: the Rust type or constant {name}" for crate, name in promise.types if name not in everywhere]
    found += [f"the library: {name}" for name in promise.library if name not in everywhere and name[0].isalpha()]
    return found + [f"{path}: the ghost member {name}" for name, path in promise.ghosts.items() if name not in everywhere]


def stale(promise, text):
    """Files of headings that aren't there, and quoted lines that stand in none of the definitions."""
    files = set().union(*(files for files, _ in sections(text)))
    found = ["/".join(map(str, file)) + " is in a heading, and isn't there" for file in sorted(files) if not is_there(file)]
    said = {line for key in promise.words for line in antt.word_at(key).text.split("\n")}
    quoted = [line for block in re.findall(r"^```antt\n(.*?)^```", text, flags=re.M | re.S) for line in block.split("\n") if line]
    return found + [f"no definition has the line: {line}" for line in quoted if line not in said]


def is_there(file):
    return antt.path_of(file) is not None or os.path.isdir(os.path.join(antt.TOP, "crates", *file))


def main():
    promise = Promise(*CALL)
    if sys.argv[1:] == ["--list"]:
        for module, name in ordered(promise.words):
            print(f"{'/'.join(module)} {name}")
        return
    if sys.argv[1:]:
        sys.exit("usage: promise.py [--list]")
    with open(PAGE) as file:
        text = file.read()
    lacking, old = missing(promise, text), stale(promise, text)
    for line in lacking + old:
        print(line)
    counts = f"{len(promise.words)} definitions, {len(promise.types)} Rust types and constants, {len(promise.ghosts)} ghost members"
    print(f"{counts}, {len(promise.library)} words of the library")
    if lacking or old:
        sys.exit(f"docs/PROMISE.md doesn't name {len(lacking)} of them, and {len(old)} of its lines are old")


if __name__ == "__main__":
    main()
