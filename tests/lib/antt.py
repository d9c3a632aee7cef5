"""Reads definitions: which names the files of specs/ declare, and which other names each of them stands on."""

import dataclasses
import functools
import os
import re

TOP = os.path.join(os.path.dirname(os.path.abspath(__file__)), os.pardir, os.pardir)
TOKEN = re.compile(r"--[^\n]*|\{-.*?-\}|\"(?:[^\"\\]|\\.)*\"|[(){};,@«»]|\.(?=\s)|[^\s(){};,@\"«»]+", re.S)
MARKS = {"pattern", "unfoldable", "abbrev", "pub", "mutual", "axiom"}
RESERVED = MARKS | set("data record where use mod open as unfolding unfold elim let in do λ → × ↦ = : | Type _ [ ]".split())
BRACED = re.compile(r"^(pub )?use\s+([^\s{]+?)\.\{(.*?)\}", re.S)
WHOLE = re.compile(r"^(pub )?use\s+([^\s{]+)(?:\s+as\s+(\S+))?\s*$")
MOD = re.compile(r"^(pub )?mod\s+(\S+)\s*$")


@dataclasses.dataclass(frozen=True)
class Word:
    """A declaration: the file of its module, its kind (`abbrev`, `record`, `data`, `shut`), comment and text."""

    module: tuple
    name: str
    kind: str
    comment: str
    text: str
    line: int

    @property
    def key(self):
        return self.module, self.name


@functools.lru_cache(None)
def crates():
    """The crates, each behind those that it lists."""
    lists = {}
    with open(os.path.join(TOP, "crates.txt")) as file:
        for line in file:
            if ":" in line and not line.startswith("#"):
                name, _, below = line.partition(":")
                lists[name.split()[0]] = below.split()
    order = []
    while len(order) < len(lists):
        order.append(next(it for it in lists if it not in order and all(low in order or low not in lists for low in lists[it])))
    return order


def path_of(module):
    """The file of a module, as ('rpki_rules', 'specs', 'Chains'); none where there is none."""
    base = os.path.join(TOP, "crates", *module)
    for path in (base + ".antt", os.path.join(base, "Lib.antt")):
        if os.path.isfile(path):
            return path
    return None


def tokens(text):
    return [it for it in TOKEN.findall(text) if not it.startswith(("--", "{-", '"'))]


def blocks(lines):
    """The pieces of a file that begin in the first column, comments apart: pairs of the line's number and the lines."""
    found = []
    for number, line in enumerate(lines, 1):
        if not line.strip() or line.lstrip().startswith("--"):
            continue
        if line[0] not in " })" or not found:
            found.append((number, []))
        found[-1][1].append(line)
    return found


def comment_above(lines, number):
    """The comment that ends right above a line, and else none."""
    kept, at = [], number - 2
    while at >= 0 and lines[at].strip().startswith("--"):
        kept.append(lines[at].strip().removeprefix("--").strip())
        at -= 1
    return " ".join(reversed(kept))


class Module:
    """A file of definitions: what it brings in, what it passes on, what it declares."""

    def __init__(self, module, path):
        self.module = module
        with open(path) as file:
            self.lines = file.read().split("\n")
        self.items, self.modules, self.children, self.words = {}, {}, set(), {}
        head = [line.strip().removeprefix("--").strip() for line in self.lines[: self.first()]]
        self.own = " ".join(head)
        pieces = []
        for number, piece in blocks(self.lines):
            self.take(number, piece, pieces)
        self.declare(pieces)

    def first(self):
        """How many lines the file's own comment has."""
        return next((at for at, line in enumerate(self.lines) if not line.startswith("--")), len(self.lines))

    def take(self, number, piece, pieces):
        text = "\n".join(piece)
        braced, whole, mod = BRACED.match(text), WHOLE.match(text), MOD.match(text)
        if braced:
            for item in braced[3].split(","):
                path, _, name = item.strip().partition(" as ")
                if path:
                    self.items[name or path.split(".")[-1]] = braced[2], path
        elif whole:
            self.modules[whole[3] or whole[2].split(".")[-1]] = whole[2]
        elif mod:
            self.children.add(mod[2])
        elif piece[0].startswith(("mutual", "abbrev mutual", "unfoldable mutual")):
            kind = "abbrev" if piece[0].startswith("abbrev") else "shut"
            pieces.extend((kind, *it) for it in self.inner(number, piece))
        else:
            pieces.append((None, number, piece))

    def inner(self, number, piece):
        """The declarations of a mutual group."""
        at = self.lines.index(piece[0], number - 1)
        end = next((i for i in range(at + 1, len(self.lines)) if self.lines[i] and not self.lines[i].startswith(" ")), len(self.lines))
        inside = [line[2:] if line.startswith("  ") else "" for line in self.lines[at + 1 : end]]
        return [(at + 1 + offset, lines) for offset, lines in blocks(inside)]

    def declare(self, pieces):
        """Puts clauses to the signatures that stand above them."""
        open_word = None
        for kind, number, piece in pieces:
            words = tokens(piece[0])
            marks = [it for it in words if it in MARKS]
            rest = [it for it in words if it not in MARKS]
            if rest and rest[0] in ("record", "data"):
                open_word = self.add(rest[1], rest[0], number, piece)
            elif marks or is_signature(piece):
                how = "abbrev" if "abbrev" in marks or "unfoldable" in marks else kind or "shut"
                open_word = self.add(rest[0], how, number, piece)
            elif open_word:
                self.words[open_word][-1].extend(piece)

    def add(self, name, kind, number, piece):
        self.words[name] = [kind, number, list(piece)]
        return name

    @functools.cached_property
    def declared(self):
        found = {}
        for name, (kind, number, piece) in self.words.items():
            text = "\n".join(piece)
            found[name] = Word(self.module, name, kind, comment_above(self.lines, number), text, number)
        return found

    @functools.cached_property
    def constructors(self):
        """The constructors of the file's data types, each with its type."""
        found = {}
        for name, (kind, _, piece) in self.words.items():
            if kind == "data":
                for line in piece[1:]:
                    made = re.match(r"\s+([^\s:]+)\s*:", line)
                    if made:
                        found[made[1]] = name
        return found


def is_signature(piece):
    """Whether a piece is `name : type`, and no clause."""
    words = tokens("\n".join(piece))
    return len(words) > 1 and words[1] == ":"


@functools.lru_cache(None)
def module_at(module):
    path = path_of(module)
    return Module(module, path) if path else None


def locate(path, inside=None):
    """What a dotted path names, from the file `inside` or from a library: ('module', it), ('word', key), ('rust', names), ('outside', path)."""
    names = path.split(".")
    if names[0] == "package":
        names = names[1:]
    if inside is not None and names[0] in inside.children:
        return down(inside.module, names)
    if inside is not None and names[0] in inside.modules:
        return go_on(locate(inside.modules[names[0]]), names[1:])
    if names[0] == "Rattle":
        if len(names) > 1 and os.path.isdir(os.path.join(TOP, "crates", names[1])):
            return down((names[1],), names[2:])
        return "outside", path
    return "outside", path


def go_on(found, names):
    if not names:
        return found
    kind, what = found
    if kind == "module":
        return down(what, names)
    if kind == "rust":
        return "rust", what + tuple(names)
    return "outside", ".".join([str(what), *names])


def down(module, names):
    """What names name below a module."""
    if not names:
        return "module", module
    if len(module) == 1:
        return down(module + (names[0],), names[1:]) if names[0] in ("specs", "proofs") else ("outside", ".".join(module + tuple(names)))
    if names[0] == "declared" and module[1:] == ("specs",):
        return "rust", (module[0], *names[1:])
    file = module_at(module)
    if names[0] in file.children:
        return down(module + (names[0],), names[1:])
    if names[0] in file.modules:
        return go_on(locate(file.modules[names[0]]), names[1:])
    return item(file, names)


def item(file, names):
    """What a name of a file is, wherever it was declared."""
    name = names[0]
    if name in file.words:
        return "word", (file.module, name)
    if name in file.constructors:
        return "word", (file.module, file.constructors[name])
    if name in file.items:
        path, below = file.items[name]
        found = go_on(locate(path, file), below.split("."))
        return found if len(names) == 1 or found[0] != "module" else go_on(found, names[1:])
    return "outside", ".".join((*file.module, *names))


def word_at(key):
    return module_at(key[0]).declared[key[1]]


def bound_in(text):
    """The names that a declaration's text binds: parameters, fields, variables of patterns and of λ."""
    words, bound = tokens(text), set()
    for at, word in enumerate(words):
        if word == "λ":
            for it in words[at + 1 :]:
                bound.add(it.rstrip("."))
                if it.endswith(".") or it == ".":
                    break
        elif word in ("(", "{"):
            end = next((i for i in range(at + 1, len(words)) if words[i] in (":", "(", ")", "{", "}", ";")), at)
            if words[end] == ":":
                bound.update(words[at + 1 : end])
        elif word == "let":
            bound.add(words[at + 1])
    return bound


def variables(line, known):
    """The variables of a clause's left side."""
    left = re.split(r"\s=(?=\s|$)", line)[0]
    return {it for it in tokens(left)[1:] if it not in RESERVED and it[0] not in "(){}" and not known(it)}


def sides(word):
    """The pieces of a declaration, each with what is bound there."""
    lines = word.text.split("\n")
    if word.kind in ("record", "data"):
        fields = {m[1] for m in (re.match(r"\s+(?:pub )?([^\s:]+)\s*:", line) for line in lines[1:]) if m}
        return [(word.text, bound_in(word.text) | fields)]
    parts, kept = [], []
    for line in lines:
        if kept and not line.startswith((" ", ")", "}")):
            parts.append("\n".join(kept))
            kept = []
        kept.append(line)
    parts.append("\n".join(kept))
    return [(part, bound_in(part)) for part in parts]


def names_in(word):
    """The names that a declaration's text uses, resolved; each as `locate` tells it."""
    file = module_at(word.module)
    found = []
    for at, (part, bound) in enumerate(sides(word)):
        def known(it):
            return "◌" in it or it.split(".")[0] in file.modules or item(file, [it])[0] != "outside" and is_constructor(file, it)
        if at and word.kind not in ("record", "data"):
            bound = bound | variables(part.split("\n    ")[0], known)
        words, deep = tokens(part), 0
        for place, it in enumerate(words):
            names = it.split(".")
            deep += (it == "{") - (it == "}")
            # A field of a record that is written out is no name.
            if deep and words[place + 1 : place + 2] == ["="]:
                continue
            head = names[0]
            if not head or head in RESERVED or head in bound or head[0].isdigit() or head in "(){};,@\"«»":
                continue
            if len(names) > 1 and (head in file.modules or head in file.children or head == "Rattle"):
                found.append(locate(it, file))
            else:
                found.append(item(file, [head]))
    return [it for it in found if it != ("word", word.key)]


def is_constructor(file, name):
    """Whether a name that stands in a pattern is a constructor's, and so no variable."""
    if name in file.constructors:
        return True
    if name not in file.items:
        return False
    path, below = file.items[name]
    found = go_on(locate(path, file), below.split("."))
    if found[0] == "rust":
        return True
    if found[0] != "word":
        return found[0] == "outside" and name[0].isupper() or name in ("true", "false", "zero", "suc", "pos", "neg")
    return word_at(found[1]).kind == "data" and below.split(".")[-1] != found[1][1]


def closure(keys):
    """All declarations that the given ones rest on, in the order in which they are first met, each behind what uses it;
    and the Rust types that they name."""
    order, rust, seen = [], {}, set()

    def visit(key):
        if key in seen:
            return
        seen.add(key)
        order.append(key)
        for kind, what in names_in(word_at(key)):
            if kind == "word":
                visit(what)
            elif kind == "rust":
                rust.setdefault(what[:-1] if what[-1] == "TheVariants" else what)
    for key in keys:
        visit(key)
    return order, list(rust)
