"""Reads code: the public calls of a file with their signatures and clauses, and what a file passes on."""

import dataclasses
import functools
import os
import re
import textwrap

from antt import TOP

CALL = re.compile(r"^(\s*)(pub(?:\([a-z ]+\))? )?(?:const )?(?:unsafe )?fn (\w+)")
CLAUSE = re.compile(r"^(requires|ensures)\b")
GHOST = re.compile(r"^\s*ghost (\w+): \{(.*)\};")
BLOCK = re.compile(r"^(?:pub(?:\([a-z ]+\))? )?(impl|trait)\b(.*)$")


@dataclasses.dataclass(frozen=True)
class Call:
    """A function: the type or trait that it belongs to, the head of its block, what its comment says, its signature and clauses in a
    line each, and both as they stand in the file."""

    owner: str
    block: str
    name: str
    public: bool
    comment: str
    signature: str
    clauses: tuple
    text: str


def is_at(folder, *names):
    """The file of a module below a crate's src/."""
    base = os.path.join(TOP, "crates", folder, "src", *names)
    return next((path for path in (base + ".rt", os.path.join(base, "mod.rt")) if os.path.isfile(path)), None)


@functools.lru_cache(None)
def lines_of(path):
    with open(path) as file:
        return file.read().split("\n")


def ghost_uses(path):
    """What the lines `ghost use` of a file bring in: the name here, and the dotted path."""
    found = {}
    for line in lines_of(path):
        got = re.match(r"^\s*ghost use (\S+?)(?:\.\{(.*)\}| as (\S+));", line)
        if not got:
            continue
        if got[3]:
            found[got[3]] = got[1]
        for item in (got[2] or "").split(","):
            name, _, renamed = item.strip().partition(" as ")
            if name:
                found[renamed or name.split(".")[-1]] = f"{got[1]}.{name}"
    return found


def comment_above(lines, at):
    """The comment right above a line, attributes apart."""
    kept = []
    for line in reversed(lines[:at]):
        text = line.strip()
        if text.startswith(("#[", "#![")):
            continue
        if not text.startswith(("///", "// ")):
            break
        kept.append(text.lstrip("/").strip())
    return " ".join(reversed(kept))


def joined(lines):
    """Lines of code in one, as it would stand if it had the room."""
    text = " ".join(line.strip() for line in lines)
    return re.sub(r",\s*([)>\]])", r"\1", re.sub(r"([(<\[])\s+", r"\1", text)).strip()


def head_of(lines, at):
    """A function's signature and clauses, from its first line on, each in one line, and both as they stand there."""
    head, first = [], at
    while at < len(lines) and not CLAUSE.match(lines[at].strip()):
        head.append(lines[at])
        at += 1
        if head[-1].endswith(("{", ";", "{}")) and not is_open(head):
            break
    clauses = []
    while at < len(lines) and not head[-1].endswith((";", "{", "{}")):
        text = lines[at].strip()
        if CLAUSE.match(text):
            taken = [lines[at]]
            while is_open(taken):
                at += 1
                taken.append(lines[at])
            clauses.append(" ".join(line.strip() for line in taken if not line.strip().startswith("//")))
            if clauses[-1].endswith(";"):
                clauses[-1] = clauses[-1].removesuffix(";")
                at += 1
                break
        elif text and not text.startswith("//"):
            break
        at += 1
    text = "\n".join(line for line in lines[first:at] if line.strip() and not line.strip().startswith("//"))
    return joined([bare(joined(head))]), tuple(clauses), bare(textwrap.dedent(text))


def bare(text):
    """A text without the sign at its end by which a body begins, or an item ends."""
    return re.sub(r"\s*(\{\}?|;)$", "", text)


def is_open(lines):
    """Whether brackets are open after these lines; the brace of a body that ends them isn't one."""
    text = "\n".join(lines)
    if not CLAUSE.match(lines[0].strip()):
        return text.count("(") > text.count(")")
    return text.count("{") > text.count("}")


def name_of(block):
    """The type or the trait that a block is of; the trait of an `impl .. for ..` is none."""
    text = re.sub(r"^(impl|trait)\s*", "", block)
    text = skip_parameters(text).strip()
    if " for " in text and block.startswith("impl"):
        return None
    found = re.match(r"\w+(?:::\w+)*", text)
    return found[0].split("::")[-1] if found else None


def skip_parameters(text):
    """A text without the parameters in angles that it begins with."""
    if not text.startswith("<"):
        return text
    deep = 0
    for at, sign in enumerate(text):
        deep += (sign == "<") - (sign == ">" and text[at - 1] != "-")
        if deep == 0:
            return text[at + 1 :]
    return text


@functools.lru_cache(None)
def calls_of(path):
    """The functions of a file, in their order."""
    lines, found, block, owner, public = lines_of(path), [], "", None, False
    at = 0
    while at < len(lines):
        line = lines[at]
        if BLOCK.match(line):
            end = next(i for i in range(at, len(lines)) if lines[i].endswith(("{", "}")))
            block = joined(lines[at : end + 1]).removesuffix("{}").removesuffix("{").strip()
            public = block.startswith("pub trait")
            block = re.sub(r"^pub(\([a-z ]+\))? ", "", block)
            owner = name_of(block)
            if lines[end].endswith("}"):
                block, owner, public = "", None, False
        elif line == "}":
            block, owner, public = "", None, False
        got = CALL.match(line)
        if got and len(got[1]) in (0, 4):
            signature, clauses, text = head_of(lines, at)
            is_public = got[2] == "pub " or public and bool(block)
            inside = bool(got[1])
            found.append(Call(owner if inside else "", block if inside else "", got[3], is_public, comment_above(lines, at), signature, clauses, text))
        at += 1
    return found


def ghosts_of(name):
    """The ghost members of a trait of this repository, each with its file and text; none where it is another's."""
    found = {}
    for path in sources():
        lines = lines_of(path)
        for at, line in enumerate(lines):
            if re.match(rf"^pub trait {name}\b", line):
                end = next(i for i in range(at, len(lines)) if lines[i].startswith("}"))
                found.update({got[1]: (path, got[2]) for got in map(GHOST.match, lines[at:end]) if got})
    return found


@functools.lru_cache(None)
def sources():
    """All files of code."""
    found = []
    for at, folders, files in os.walk(os.path.join(TOP, "crates")):
        folders[:] = sorted(it for it in folders if it != "out")
        found.extend(os.path.join(at, name) for name in sorted(files) if name.endswith(".rt") and "/src" in at)
    return found
