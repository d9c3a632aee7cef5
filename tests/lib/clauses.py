"""Follows a clause into the definitions in `specs` that it cites, with an answer in place of `result`, and says what is left of it."""

import dataclasses
import re

from terms import Parser, parse, tokens_of

BUILT_IN = {"Ok", "Err", "Some", "None", "true", "false", "[]"}
# What the standard library says of answers, options and truth values.
PRELUDE = """
IfOk (Ok x) P = P x
IfOk (Err e) P = Unit
OnOk (Ok x) P = P
OnOk (Err e) P = Unit
IfErr (Ok x) P = Unit
IfErr (Err e) P = P e
OnErr (Ok x) P = Unit
OnErr (Err e) P = P
IsOk (Ok x) = Unit
IsOk (Err e) = ⊥
IsErr (Ok x) = ⊥
IsErr (Err e) = Unit
IsErrOf (Ok x) e = ⊥
IsErrOf (Err d) e = d ≡ e
IsErrAnd (Ok x) P = ⊥
IsErrAnd (Err e) P = P e
MatchResult (Ok x) P Q = P x
MatchResult (Err e) P Q = Q e
IfSome (Some x) P = P x
IfSome None P = Unit
IfNone (Some x) P = Unit
IfNone None P = P
MatchOption (Some x) P Q = P x
MatchOption None P Q = Q
IsTrue true = Unit
IsTrue false = ⊥
IsFalse true = ⊥
IsFalse false = Unit
not true = false
not false = true
"""


# Definitions.

USE = re.compile(r"^\s*(?:pub )?(?:ghost )?use (Rattle[\w.\-]*|[\w.\-]+?)(?:\.\{([^}]*)\}| as (\w+))?;?\s*$")


@dataclasses.dataclass
class Module:
    """A file of definitions, or the clauses of a file of code: what it defines, and from where its names come."""

    crate: str
    name: str
    functions: dict = dataclasses.field(default_factory=dict)
    records: dict = dataclasses.field(default_factory=dict)
    constructors: set = dataclasses.field(default_factory=set)
    imports: dict = dataclasses.field(default_factory=dict)
    aliases: dict = dataclasses.field(default_factory=dict)


def statements_of(text):
    """Statements at the margin, with what is indented below them; what stands in a `mutual` block as if it stood at the margin."""
    found = []
    inside = False
    for line in text.splitlines():
        if not line.strip() or line.lstrip().startswith("--"):
            continue
        if not line[0].isspace():
            inside = line.split()[-1] == "mutual"
        elif inside:
            line = line[2:]
        if line[0].isspace() and found:
            found[-1] += "\n" + line
        else:
            found.append(line)
    return found


def read_imports(module, text):
    for line in text.splitlines():
        match = USE.match(line)
        if not match:
            continue
        path, names, alias = match.groups()
        if alias:
            module.aliases[alias] = path
        for item in (names or "").split(","):
            original, _, local = item.strip().partition(" as ")
            module.imports[local or original] = (path, original)


def read_definitions(crate, name, text):
    module = Module(crate, name)
    read_imports(module, text)
    for statement in statements_of(text):
        words = statement.split()
        kind = next((word for word in words[:2] if word in ("data", "record")), None)
        if kind == "data":
            module.constructors |= set(re.findall(r"\n\s+(\w+) :", statement))
        elif kind == "record":
            read_record(module, statement)
        elif words[0] not in ("use", "abbrev", "pub", "mod", "unfoldable", "theorem", "impl", "tactic"):
            read_equation(module, statement)
    return module


def read_record(module, statement):
    head, _, body = statement.partition(" where")
    name = re.search(r"record (\w+)", head)
    fields = re.findall(r"\n\s+pub (\w+) : ((?:[^\n]|\n(?!\s+pub \w+ : ))*)", body)
    if name:
        names = []
        for group in re.findall(r"\(([^():]+):", head):
            names += group.split()
        module.records[name[1]] = (names, fields)


def read_equation(module, statement):
    """Keeps `name patterns = body`; what isn't an equation is passed over."""
    try:
        tokens = tokens_of(statement)
        at = split_at(tokens)
        left = Parser(tokens[:at]).term() if at else None
    except ValueError:
        return
    if left is None or left[0] not in ("app", "var"):
        return
    head, patterns = (left[1], left[2]) if left[0] == "app" else (left, [])
    if head[0] == "var":
        module.functions.setdefault(head[1], []).append((patterns, tokens[at + 1:]))


def split_at(tokens):
    """The place of the first `=` outside brackets."""
    depth = 0
    for at, word in enumerate(tokens):
        depth += (word in "([{") - (word in ")]}")
        if word == "=" and not depth:
            return at
    return None


class Definitions:
    """All definitions of the libraries, by crate and module."""

    def __init__(self, modules, crates):
        self.modules = {(module.crate, module.name): module for module in modules}
        self.crates = set(crates)
        self.named = {}
        for module in modules:
            for name in [*module.functions, *module.records]:
                self.named.setdefault(name, []).append(module)
        self.prelude = read_definitions("std", "Prelude", PRELUDE)
        self.constructors = BUILT_IN.union(*(module.constructors for module in modules))
        self.unknown = {}

    def place(self, path):
        """The crate and the module that a path names: what is passed on is found where it stands first."""
        words = path.split(".")
        last = max((at for at, word in enumerate(words) if word in self.crates), default=None)
        if last is None:
            return None, words[-1]
        return words[last], ".".join(word for word in words[last + 1:] if word != "specs")

    def find(self, name, module):
        """The module that defines a name as another knows it, and its name there."""
        if name in module.functions or name in module.records:
            return module, name
        if name in module.imports:
            path, original = module.imports[name]
            if path.startswith("Rattle.std"):
                return (self.prelude, original) if original in self.prelude.functions else (None, original)
            crate, inside = self.place(path)
            found = self.modules.get((crate, inside))
            if found and (original in found.functions or original in found.records or original in found.imports):
                return self.find(original, found)
            if ".declared." in path:
                return None, original
            here = [it for it in self.named.get(original, []) if it.crate == crate] or self.named.get(original, [])
            return (here[0] if len(here) == 1 else None), original
        if name in self.prelude.functions:
            return self.prelude, name
        return None, name


# Following a clause.

# What is left of a statement: that it holds in any case, that it never does, something of what it binds itself, of what is left of
# an argument, or more.
TRUE, FALSE, BOUND, LEFT, SAYS = "holds", "never", "bound", "left", "says"


@dataclasses.dataclass(frozen=True)
class Con:
    """A constructor with its arguments; whether it is the error's, or made of it."""

    name: str
    args: tuple = ()
    of_error: bool = False


@dataclasses.dataclass(frozen=True)
class Fields:
    """A record by its fields."""

    fields: tuple


@dataclasses.dataclass(frozen=True)
class Any:
    """Something that isn't known, with marks: of the error, of what the call was given, of what it leaves of that; of what a
    statement says that there is, which a body may choose."""

    marks: frozenset = frozenset()


CHOSEN = Any(frozenset({"chosen"}))


class Later:
    """A term with the names that it knows, worked out when it is wanted."""

    def __init__(self, term, names, module):
        self.term, self.names, self.module, self.value = term, names, module, None


class Follower:
    """Works out what is left of a clause."""

    def __init__(self, definitions):
        self.definitions = definitions
        self.depth = 0
        # Whether the answer's form decided which statement is followed: then what it says, it says of such answers.
        self.chosen = False

    # Values.

    def force(self, thing):
        if not isinstance(thing, Later):
            return thing
        if thing.value is None:
            thing.value = Any()
            thing.value = self.value(thing.term, thing.names, thing.module)
        return thing.value

    def value(self, term, names, module):
        """A constructor with its arguments, fields, a function (a pair), or something that isn't known."""
        kind = term[0]
        if kind == "var":
            return self.variable(term[1], names, module)
        if kind == "app":
            return self.apply(self.value(term[1], names, module), [Later(it, names, module) for it in term[2]], (term, names, module))
        if kind == "lam":
            return ("lam", term, names, module)
        if kind == "record":
            return Fields(tuple((name, Later(it, names, module)) for name, it in term[1].items()))
        if kind == "proj":
            return self.project(self.value(term[1], names, module), term[2])
        if kind == "tuple":
            return Con(",", tuple(Later(it, names, module) for it in term[1]))
        if kind == "let":
            return self.value(term[3], {**names, term[1]: Later(term[2], names, module)}, module)
        if kind == "if":
            return self.choose(term, names, module)
        if kind == "op" and term[1] == "∷":
            return Con("∷", (Later(term[2], names, module), Later(term[3], names, module)))
        return self.unknown(term, names, module)

    def choose(self, term, names, module):
        test = self.value(term[1], names, module)
        if isinstance(test, Con) and test.name in ("true", "false"):
            return self.value(term[2 if test.name == "true" else 3], names, module)
        return self.unknown(term, names, module)

    def variable(self, name, names, module):
        root, *fields = name.split(".")
        if root in names:
            found = self.force(names[root])
            for field in fields:
                found = self.project(found, field)
            return found
        if fields and root in module.aliases and ".TheVariants" in module.aliases[root]:
            return Con(fields[-1])
        if fields and (root[0].isupper() and fields[-1][0].isupper()):
            return Con(fields[-1])
        if fields:
            return Any(of_call(name, module))
        if name.isdigit():
            return Con(name)
        home, original = self.definitions.find(name, module)
        if home and original in home.functions:
            return self.defined(home, original)
        if self.is_constructor(name, original, module):
            return Con(original)
        return ("name", home, original) if home else Any(of_call(name, module))

    def is_constructor(self, name, original, module):
        if original in self.definitions.constructors:
            return True
        path = module.imports.get(name, ("", ""))[0]
        return path.endswith("TheVariants") or (".declared." in path and original[0].isupper()) or name == "Unit"

    def defined(self, home, name):
        equations = home.functions[name]
        if len(equations) == 1 and not equations[0][0]:
            return self.value(body_of(home, name, 0), {}, home)
        return ("fun", home, name, ())

    def project(self, value, field):
        if isinstance(value, Fields):
            found = dict(value.fields).get(field)
            return Any() if found is None else self.force(found)
        if isinstance(value, Con) and value.name == "," and field.isdigit() and int(field) < len(value.args):
            return self.force(value.args[int(field)])
        return value if isinstance(value, Any) else Any()

    def apply(self, head, args, whole):
        if not args:
            return head
        if isinstance(head, Con):
            return dataclasses.replace(head, args=head.args + tuple(args))
        if isinstance(head, tuple) and head[0] == "lam":
            _, (_, params, body), names, module = head
            names = {**names, **dict(zip(params, args))}
            if len(args) < len(params):
                return ("lam", ("lam", params[len(args):], body), names, module)
            found = self.value(body, names, module)
            return self.apply(found, args[len(params):], whole)
        if isinstance(head, tuple) and head[0] == "fun":
            _, home, name, before = head
            args = [*before, *args]
            wanted = len(home.functions[name][0][0])
            if len(args) < wanted:
                return ("fun", home, name, tuple(args))
            cases = self.cases(home, name, args[:wanted])
            if len(cases) == 1:
                return self.apply(self.colored(self.value(*cases[0]), args), args[wanted:], whole)
        return self.unknown(*whole)

    def colored(self, found, args):
        """What is made of an error tells of it."""
        if isinstance(found, Con) and any("error" in self.marks_of(it, set()) for it in args):
            return dataclasses.replace(found, of_error=True)
        return found

    def unknown(self, term, names, module):
        return Any(frozenset(self.marks(term, names, module, set())))

    def marks(self, term, names, module, seen):
        """Of what a term speaks: the error, what is left."""
        kind = term[0]
        if kind == "var":
            return self.marks_of_name(term[1], names, module, seen)
        found = set()
        if kind == "lam":
            names = {name: it for name, it in names.items() if name not in term[1]}
        for part in term[1:]:
            parts = part.values() if isinstance(part, dict) else part if isinstance(part, list) else [part]
            for it in parts:
                if isinstance(it, tuple):
                    found |= self.marks(it, names, module, seen)
        return found

    def marks_of_name(self, name, names, module, seen):
        root, *fields = name.split(".")
        if root not in names:
            return set(of_call(name, module))
        thing = names[root]
        for field in fields:
            thing = self.project(self.force(thing), field)
        return self.marks_of(thing, seen)

    def marks_of(self, thing, seen):
        if id(thing) in seen:
            return set()
        seen.add(id(thing))
        if isinstance(thing, Later):
            return self.marks(thing.term, thing.names, thing.module, seen)
        if isinstance(thing, Any):
            return set(thing.marks)
        found = {"error"} if isinstance(thing, Con) and thing.of_error else set()
        parts = thing.args if isinstance(thing, Con) else [it for _, it in thing.fields] if isinstance(thing, Fields) else ()
        return found.union(*(self.marks_of(it, seen) for it in parts))

    # Matching.

    def cases(self, home, name, args):
        """The equations that may hold of these arguments: terms with what they know."""
        found = []
        for at, (patterns, _) in enumerate(home.functions[name]):
            names = {}
            fits = [self.fits(pattern, arg, names, home) for pattern, arg in zip(patterns, args)]
            if False in fits:
                continue
            found.append((body_of(home, name, at), names, home))
            if None not in fits:
                break
        return found

    def decides(self, home, name, args):
        """Whether the form of the error, or of what is made of it, decides which equation holds."""
        looked_at = {at for patterns, _ in home.functions[name] for at, it in enumerate(patterns) if it[0] != "var" or self.is_form(it[1], home)}
        return any("error" in self.marks_of(args[at], set()) for at in looked_at)

    def fits(self, pattern, arg, names, home):
        """Whether an argument has the form of a pattern; None where that isn't known."""
        if pattern[0] == "var":
            if not self.is_form(pattern[1], home):
                names[pattern[1]] = arg
                return True
            pattern = ("app", pattern, [])
        if pattern[0] == "tuple":
            pattern = ("app", ("var", ","), pattern[1])
        if pattern[0] == "op":
            pattern = ("app", ("var", pattern[1]), [pattern[2], pattern[3]])
        value = self.force(arg)
        name = home.imports.get(pattern[1][1], ("", pattern[1][1].split(".")[-1]))[1]
        if isinstance(value, Con):
            if value.name != name or len(value.args) != len(pattern[2]):
                return False
            parts = [self.fits(inner, it, names, home) for inner, it in zip(pattern[2], value.args)]
            return False if False in parts else None if None in parts else True
        for inner in pattern[2]:
            self.fits(inner, value if isinstance(value, Any) else Any(), names, home)
        return None

    def is_form(self, name, home):
        """Whether a name in a pattern is a constructor's."""
        if "." in name or name == "[]" or name.isdigit() or name in BUILT_IN or name in home.constructors:
            return True
        path, original = home.imports.get(name, ("", ""))
        return path.endswith("TheVariants") or (bool(path) and original in self.definitions.constructors)

    # Statements.

    def says(self, term, names, module):
        """What is left of a statement; one that goes on and on counts as saying something."""
        self.depth += 1
        try:
            return self.statement(term, names, module) if self.depth < 30 else SAYS
        finally:
            self.depth -= 1

    def statement(self, term, names, module):
        kind = term[0]
        if kind == "op" and term[1] in SIGNS:
            return SIGNS[term[1]](self, term, names, module)
        if kind == "bind":
            there_is = CHOSEN if term[1] == "×" else Any()
            found = self.says(term[3], {**names, term[2]: there_is}, module)
            return SAYS if found == FALSE and term[1] == "→" else found
        if kind == "not":
            return opposite(self.says(term[1], names, module))
        if kind == "let":
            return self.says(term[3], {**names, term[1]: Later(term[2], names, module)}, module)
        if kind == "var" and term[1] in ("⊥", "⊤"):
            return FALSE if term[1] == "⊥" else TRUE
        return self.called(term, names, module)

    def called(self, term, names, module):
        """A statement that is a relation of arguments, or a name for one."""
        head, args = (term[1], term[2]) if term[0] == "app" else (term, [])
        value = self.value(head, names, module)
        args = [Later(it, names, module) for it in args]
        return self.related(value, args, (term, names, module))

    def related(self, value, args, whole):
        if isinstance(value, Con) and value.name == "Unit":
            return TRUE
        if isinstance(value, tuple) and value[0] == "lam":
            _, (_, params, body), names, module = value
            if len(args) == len(params):
                return self.says(body, {**names, **dict(zip(params, args))}, module)
        if isinstance(value, tuple) and value[0] == "fun":
            _, home, name, before = value
            args, wanted = [*before, *args], len(home.functions[name][0][0])
            if len(args) >= wanted:
                before, self.chosen = self.chosen, self.chosen or self.decides(home, name, args)
                found = self.by_cases(self.cases(home, name, args[:wanted]), args[wanted:], whole)
                self.chosen = before
                return found
        if isinstance(value, tuple) and value[0] == "name" and value[2] in value[1].records:
            return self.by_fields(value, args)
        return self.plain(*whole)

    def by_cases(self, cases, more, whole):
        if len(cases) != 1 and "error" not in self.marks(*whole, set()):
            return self.plain(*whole)
        found = {self.says(*case) if not more else self.related(self.value(*case), more, whole) for case in cases}
        if len(cases) != 1 and "chosen" in self.marks(*whole, set()):
            return weakest(found)
        return found.pop() if len(found) == 1 else SAYS if found & {SAYS, FALSE} else strongest(found)

    def by_fields(self, value, args):
        """A record of facts says what the strongest of them does."""
        _, home, name = value
        params, fields = home.records[name]
        names = dict(zip(params, args[-len(params):] if params else []))
        names.update((name, CHOSEN) for name, _ in fields)
        facts = [text for at, (name, text) in enumerate(fields) if not any(re.search(rf"\b{name}\b", later) for _, later in fields[at + 1:])]
        return strongest({self.field(text, names, home) for text in facts})

    def field(self, text, names, home):
        try:
            return self.says(parse(text), names, home)
        except ValueError:
            return SAYS

    def plain(self, term, names, module):
        """A statement that nothing unfolds says something of the error, or of what was given, unless of what is left of that."""
        marks = self.marks(term, names, module, set()) - {"chosen"}
        return SAYS if "error" in marks or marks == {"given"} else LEFT if marks else BOUND

    def equal(self, term, names, module):
        truth = self.same(self.value(term[2], names, module), self.value(term[3], names, module))
        return self.plain(term, names, module) if truth is None else TRUE if truth else FALSE

    def same(self, left, right):
        if not isinstance(left, Con) or not isinstance(right, Con):
            return None
        if left.name != right.name:
            return False
        parts = [self.same(self.force(x), self.force(y)) for x, y in zip(left.args, right.args)]
        return False if False in parts else None if None in parts else True

    def both(self, term, names, module):
        return strongest({self.part(term[2], names, module), self.part(term[3], names, module)})

    def part(self, term, names, module):
        """A part of a statement that speaks of answers whatever they are, and not of the error, says nothing of it."""
        if not self.chosen and "error" not in self.marks(term, names, module, set()):
            return TRUE
        return self.says(term, names, module)

    def either(self, term, names, module):
        found = {self.says(term[2], names, module), self.says(term[3], names, module)}
        return TRUE if TRUE in found else strongest(found - {FALSE} or {FALSE})

    def follows(self, term, names, module):
        first = self.says(term[2], names, module)
        if first == FALSE:
            return TRUE
        then = self.says(term[3], names, module)
        if then == FALSE:
            return FALSE if first == TRUE else first
        return SAYS if then == BOUND and first == SAYS else then

    def agree(self, term, names, module):
        one, two = self.says(term[2], names, module), self.says(term[3], names, module)
        if one in (TRUE, FALSE) and two in (TRUE, FALSE):
            return TRUE if one == two else FALSE
        return SAYS if SAYS in (one, two) else strongest({one, two} - {TRUE, FALSE})


def of_call(name, module):
    """The marks of a name that nothing defines: in the clauses of a call it is an argument, `.new` what is left of one."""
    if module.name or name in module.imports:
        return frozenset()
    return frozenset({"left" if "new" in name.split(".") else "given"})


def strongest(found):
    return next((it for it in (FALSE, SAYS, LEFT, BOUND) if it in found), TRUE)


def weakest(found):
    """What is left where a body may choose the case: the least that one of them says, unless none can be."""
    return next((it for it in (TRUE, BOUND, LEFT, SAYS) if it in found), FALSE)


def opposite(found):
    return {TRUE: FALSE, FALSE: TRUE}.get(found, found)


SIGNS = {
    "→": Follower.follows,
    "×": Follower.both,
    "⊎": Follower.either,
    "↔": Follower.agree,
    "≡": Follower.equal,
    "≢": lambda self, term, names, module: opposite(self.equal(term, names, module)),
}

BODIES = {}


def body_of(home, name, at):
    """The body of an equation, read once."""
    key = (home.crate, home.name, name, at)
    if key not in BODIES:
        try:
            BODIES[key] = Parser(home.functions[name][at][1]).term()
        except ValueError:
            BODIES[key] = ("var", "_")
    return BODIES[key]
