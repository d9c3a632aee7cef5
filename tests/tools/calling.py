#!/usr/bin/env python3
"""Writes crates/FACE/CALLING.md for each member's face: a program over it, what differs at a call, and the public calls with their
contracts.

    calling.py [--check] [FACE..]

It follows the face's lines of `pub use` to the files of its parts, and quotes each public call as it stands there: its
signature and its clauses. What differs is what docs/DIFFERENCES.md says. With --check nothing is written, and the exit
status is 1 where a page isn't what would be written.
"""

import functools
import os
import re
import sys

sys.path.insert(0, os.path.join(os.path.dirname(os.path.abspath(__file__)), os.pardir, "lib"))

import antt
import contracts

DIFFERENCES = os.path.join(antt.TOP, "docs", "DIFFERENCES.md")
# Of each face the sections of docs/DIFFERENCES.md that speak of it.
FACES = {
    "bcder": ["Codec"],
    "resources": ["Resources"],
    "certs": ["Certificates", "Revocation lists"],
    "objects": ["Signed objects", "Trust anchor locators"],
    "rpki_validator": ["Validator"],
}
# The program over each face that is shown first.
EXAMPLES = {
    "bcder": "example_codec",
    "resources": "example_resources",
    "certs": "example_certificate",
    "objects": "example_checklist",
    "rpki_validator": "example_validator",
}
ITEM = re.compile(r"^pub (struct|enum|trait|type|const|fn|unsafe trait) (\w+)")
USE = re.compile(r"^(pub )?use ([^;{]+?)(?:::\{([^}]*)\}| as (\w+))?;", re.M | re.S)
MOD = re.compile(r"^(?:pub(?:\([a-z ]+\))? )?mod (\w+);", re.M)


class Source:
    """A module: its items, its children, and what it brings in."""

    def __init__(self, crate, names):
        self.crate, self.names = crate, names
        self.path = contracts.is_at(crate, *(names or ("lib",)))
        text = "\n".join(contracts.lines_of(self.path))
        self.items = {got[2]: got[1] for got in map(ITEM.match, text.split("\n")) if got}
        self.children = set(MOD.findall(text))
        self.public = set(re.findall(r"^pub mod (\w+);", text, re.M))
        self.uses, self.passed = {}, []
        for public, path, several, renamed in USE.findall(text):
            path = re.sub(r"\s+", "", path)
            items = [it.strip() for it in several.split(",") if it.strip()] if several else [""]
            for item in items:
                below, _, new = item.partition(" as ")
                whole = f"{path}::{below}" if below else path
                name = new.strip() or renamed or whole.split("::")[-1]
                if name == "self":
                    name = path.split("::")[-1]
                self.uses[name] = whole.removesuffix("::self")
                if public:
                    self.passed.append(name)


@functools.lru_cache(None)
def source(crate, names):
    return Source(crate, names) if contracts.is_at(crate, *(names or ("lib",))) else None


def found(module, name, seen=()):
    """What a name of a module is: ('module', it) or ('item', module, name); none where it stands outside the repository."""
    if module is None or (module.crate, module.names, name) in seen:
        return None
    if name in module.items:
        return "item", module, name
    if name in module.children:
        return "module", source(module.crate, module.names + (name,))
    if name in module.uses:
        return along(module, module.uses[name].split("::"), (*seen, (module.crate, module.names, name)))
    return None


def along(module, names, seen=()):
    """What a path names, from a module."""
    if names[0] == "crate":
        at, rest = ("module", source(module.crate, ())), names[1:]
    elif names[0] == "super":
        at, rest = ("module", source(module.crate, module.names[:-1])), names[1:]
    elif names[0] in module.children or names[0] in module.uses and (module.crate, module.names, names[0]) not in seen:
        at, rest = found(module, names[0], seen), names[1:]
    else:
        at, rest = ("module", source(names[0], ())), names[1:]
    for name in rest:
        if at is None or at[0] != "module":
            return None
        at = found(at[1], name, seen)
    return at


def public_items(face):
    """The items of a face: of each the modules under which users name it, the one to show it under first."""
    order = {}

    def visit(module, under):
        for name in module.children & module.public:
            visit(source(module.crate, module.names + (name,)), (*under, name))
        for name in [*module.items, *module.passed]:
            at = found(module, name)
            if at and at[0] == "module" and len(under) < 3:
                visit(at[1], (*under, name))
            elif at and at[0] == "item":
                order.setdefault((at[1].crate, at[1].names, at[2]), set()).add((*under, name))

    visit(source(face, ()), ())
    return {key: min(places, key=lambda it: (len(it) < 2, len(it), it)) for key, places in order.items()}


def about(face):
    """What the comment of a face's root file says: its first paragraphs, and the example with what stands above it."""
    lines = [line.removeprefix("//!").removeprefix(" ") for line in contracts.lines_of(contracts.is_at(face, "lib")) if line.startswith("//!")]
    text = "\n".join(lines)
    first = re.split(r"\n\n\|", text)[0]
    shown = re.search(r"((?:[^\n]+\n)+)\n```text\n(.*?)```", text, re.S)
    return "\n\n".join(" ".join(part.split("\n")) for part in first.split("\n\n")), shown and (" ".join(shown[1].split("\n")).strip(), shown[2])


def differences(names):
    """The rows of sections of docs/DIFFERENCES.md, without their reasons; what stands there in place of rows."""
    with open(DIFFERENCES) as file:
        parts = dict(part.split("\n", 1) for part in re.split(r"^## ", file.read(), flags=re.M)[1:])
    rows, texts = [], []
    for name in names:
        for line in parts[name].split("\n"):
            cells = re.split(r"(?<=\s)\|(?=\s)", line.strip()[1:-1])
            if line.startswith("|") and len(cells) == 3 and not line.startswith(("|---", "| In the Rust")):
                rows.append(f"| {cells[0].strip()} | {cells[1].strip()} |")
            elif line and not line.startswith("|"):
                texts.append(line)
    return rows, texts


@functools.lru_cache(None)
def modules_of(crate):
    """The modules of a crate."""
    top = os.path.join("crates", crate, "src") + os.sep
    found_here = []
    for path in contracts.sources():
        below = os.path.relpath(path, antt.TOP)
        if below.startswith(top):
            names = below.removeprefix(top).removesuffix(".rt").split(os.sep)
            names = names[:-1] if names[-1] == "mod" else names
            found_here.append(source(crate, () if names == ["lib"] else tuple(names)))
    return [it for it in found_here if it]


def is_named(module, name, key):
    """Whether a name in a module is that item."""
    at = found(module, name)
    return at is not None and at[0] == "item" and (at[1].crate, at[1].names, at[2]) == key


def calls_of(key):
    """The public calls of an item."""
    crate, names, name = key
    home = source(crate, names)
    if home.items[name] == "fn":
        return [call for call in contracts.calls_of(home.path) if call.name == name and not call.block]
    return [
        call
        for module in modules_of(crate)
        if is_named(module, name, key)
        for call in contracts.calls_of(module.path)
        if call.owner == name and call.public
    ]


def implemented(key):
    """The traits that a type's derives and the blocks of its crate implement for it."""
    crate, _, name = key
    traits = []
    for module in modules_of(crate):
        if is_named(module, name, key):
            text = "\n".join(contracts.lines_of(module.path))
            own = re.search(rf"#\[derive\(([^)]*)\)\]\n(?:#\[[^\n]*\n|///[^\n]*\n)*pub (?:struct|enum) {name}\b", text)
            traits += [it.strip() for it in own[1].split(",") if it.strip()] if own else []
            traits += re.findall(rf"^impl\b[^\n]*?(\w+(?:<[^\n]*?>)?) for (?:\w+::)*{name}\b", text, re.M)
    return [it for it in dict.fromkeys(traits) if it != "Model"]


def ghosts(key):
    """What implementations of a trait say of themselves, as it stands in the trait."""
    lines = contracts.lines_of(source(*key[:2]).path)
    start = next(i for i, line in enumerate(lines) if re.match(rf"pub (?:unsafe )?trait {key[2]}\b", line))
    end = lines.index("}", start)
    return [line for line in lines[start:end] if re.match(r"\s+ghost \w+.*;$", line)]


def lines_of(key):
    """A type that is another's name, or a constant, as it stands in its file."""
    crate, names, name = key
    text = "\n".join(contracts.lines_of(source(crate, names).path))
    return re.sub(r"\s+", " ", re.search(rf"^pub (?:type|const) {name}\b(?:\[[^\]]*\]|[^;\[])*;", text, re.M)[0]).removeprefix("pub ")


def item_text(key, given):
    """An item's calls as they stand in their files, those of one block together; what it has beside them. The face may have
    given it another name."""
    crate, names, name = key
    kind, parts, last = source(crate, names).items[name], [], None
    if kind == "const" or kind == "type" and not calls_of(key):
        return f"- `{lines_of(key)}` (`{crate}`)"
    traits = ", ".join(f"`{it}`" for it in implemented(key)) if kind in ("struct", "enum") else ""
    place = f"`{lines_of(key)}` (`{crate}`)" if kind == "type" else f"`{given}` (`{crate}`" + (f", there `{name}`)" if given != name else ")")
    for call in calls_of(key):
        if call.block and call.block != last:
            parts.append("\n".join([call.block, *(ghosts(key) if kind == "trait" else [])]))
            last = call.block
        parts.append(call.text.removeprefix("pub "))
    if not parts:
        return f"- {place}" + (f": {traits}" if traits else "")
    head = "" if kind == "fn" else place + (f", also {traits}" if traits else "") + ":\n\n"
    return f"{head}```text\n" + "\n\n".join(parts) + "\n```"


def program(face):
    """The program over a face: the command that runs it, and its source, `main` first."""
    name = EXAMPLES[face]
    folder = os.path.join(antt.TOP, "crates", name, "src")
    run = f"    cd crates/{name} && rt try < stdin"
    parts = [f"\n## A program\n\nAt the top of a clone\n\n{run}\n\nruns this one, and `rt run < stdin` there proves it first.\n"]
    for file in sorted(os.listdir(folder), key=lambda it: (it != "main.rt", it)):
        with open(os.path.join(folder, file)) as text:
            parts.append(f"\n`src/{file}`:\n\n```rust\n{text.read()}```\n")
    return "".join(parts)


def page(face):
    text, example = about(face)
    first, _, others = text.partition("\n\n")
    rows, texts = differences(["Everywhere", *FACES[face]])
    parts = [f"# Calling `{face}`\n\n{first}\n", program(face)]
    parts += [f"\n## The face\n\n{others}\n"] if others else []
    if example:
        parts.append(f"\n## A caller\n\n{example[0]}\n\n```text\n{example[1]}```\n")
    parts.append("\n## What differs at a call\n\n`docs/DIFFERENCES.md` has the reasons.\n")
    parts += [f"\n{line}\n" for line in texts]
    parts.append("\n| In the Rust crates | Here |\n|---|---|\n" + "\n".join(rows) + "\n")
    parts.append(CONTRACTS)
    groups = {}
    for key, place in public_items(face).items():
        groups.setdefault(place[:-1], []).append((key, place[-1]))
    for under in sorted(groups, key=lambda it: ("laws" in it, it)):
        parts.append(f"\n### {'`' + '::'.join(under) + '`' if under else 'At the root'}\n")
        texts = [item_text(*it) for it in sorted(groups[under], key=lambda it: (source(*it[0][:2]).items[it[0][2]] == "fn", it[0][2]))]
        parts += [f"\n{text}\n" for text in texts if not text.startswith("- ")]
        without = [text for text in texts if text.startswith("- ")]
        parts += ["\nWithout calls of their own:\n\n" + "\n".join(without) + "\n"] if without else []
    return "".join(parts)


CONTRACTS = """
## Contracts

Each call stands here with its clauses as in the crate that is named beside its type; what a type derives or implements
besides stands in front. `self.old` and `self.new` are a value that is lent for a change, before the call and after it,
`self.now` one that is only lent. `IfOk result (λ x. ..)` says what holds of the value where the call answers `Ok`, `IfErr` of
the error, `OnOk` and `OnErr` what else holds then. The other words are of `specs/`: `tests/tools/definitions.py NAME` prints
them, and the lines `ghost use` at the top of a file say which is meant. `tests/tools/calling.py` writes this page.
"""


def main():
    words = sys.argv[1:]
    check, faces = "--check" in words, [it for it in words if it != "--check"] or list(FACES)
    if any(face not in FACES for face in faces):
        sys.exit("usage: calling.py [--check] [FACE..]")
    old = []
    for face in faces:
        path, text = os.path.join(antt.TOP, "crates", face, "CALLING.md"), page(face)
        if not check:
            with open(path, "w") as file:
                file.write(text)
            continue
        try:
            with open(path) as file:
                same = file.read() == text
        except FileNotFoundError:
            same = False
        if not same:
            old.append(f"crates/{face}/CALLING.md")
    if old:
        sys.exit(f"{', '.join(old)}: not what tests/tools/calling.py writes")


if __name__ == "__main__":
    main()
