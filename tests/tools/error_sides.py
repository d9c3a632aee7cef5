#!/usr/bin/env python3
"""Compares the public calls that answer an error of which none of their clauses says anything with the reasons for that.

    error_sides.py [--list] [--prune] [--follow WORD]

Calls are those of the libraries that answer a `Result`, or an exit status by a clause `status`, and that other crates can name. Errors
are the statuses but 0, or are told apart by the variants that their type's declaration has; where a variant holds an error type of these
libraries, by that type's. A clause counts where it still says something once such an error stands in place of `result` and the
definitions that it cites are followed (`tests/lib/clauses.py`). So what holds
in any case doesn't count, and neither does what tells of an argument alone what is left of it: that a content is failed, that a
builder stays as it was, or that nothing was written. Where a clause says that there is something, as what was read of a folder, a body
may choose it, so the case that says least counts. Where a definition can't be followed to its end, the clause counts.

Of a call whose only error is a refused growth the error is called `growth`: no clause can say that a growth was refused.

Each row that is left has its reason in `error_sides.tsv`. Exits with 1 where a row has no reason, or a reason no row. With --list
all rows are printed with their reasons; with --prune reasons without a row are taken out; with --follow the calls with that word
in their name are printed, and what is left of each clause.
"""

import argparse
import collections
import fnmatch
import functools
import pathlib
import re
import sys

TOP = pathlib.Path(__file__).resolve().parents[2]
sys.path[:0] = [str(TOP / "tests/lib"), str(TOP / "tests/tools")]

import calling
from calls import GROWTHS, calls_of, errors_of, split_list
from clauses import FALSE, SAYS, Any, Con, Definitions, Fields, Follower, Module, read_definitions, read_imports
from terms import parse

REASONS = pathlib.Path(__file__).with_suffix(".tsv")
# The words with which a reason begins.
WORDS = ("handed in", "told otherwise", "tested", "growth", "open")
# Examples and programs.
OTHERS = re.compile(r"example_\w+|\w+_example|rpki_ask|rpki_check")


OF_ERROR, OF_LEFT = Any(frozenset({"error"})), Any(frozenset({"left"}))


class Libraries:
    """The sources of all libraries."""

    def __init__(self):
        self.crates = sorted(it.name for it in (TOP / "crates").iterdir() if it.is_dir() and not OTHERS.fullmatch(it.name))
        texts = {path: path.read_text() for name in self.crates for path in sorted((TOP / "crates" / name / "src").rglob("*.rt"))}
        every = "\n".join(texts.values())
        traits = set(re.findall(r"\bpub trait (\w+)", every))
        self.texts = texts
        self.of_crate = {name: [(path, text) for path, text in texts.items() if self.crate_of(path) == name] for name in self.crates}
        calls = (it for path, text in texts.items() for it in calls_of(self.crate_of(path), path, text, traits))
        self.calls = [it for it in calls if (it.owner or it.name) not in self.hidden(it.crate)]
        self.errors = collections.defaultdict(list)
        for path, text in texts.items():
            for it in errors_of(self.crate_of(path), path, text):
                self.errors[it.name].append(it)
        everywhere = [it.name for it in (TOP / "crates").iterdir()]
        self.follower = Follower(Definitions(list(self.definitions()), everywhere))

    @functools.cache
    def hidden(self, crate):
        """What a crate declares and no path from its root names: other crates can't call it."""
        declared = {name for module in calling.modules_of(crate) for name in module.items}
        return declared - {key[2] for key in calling.public_items(crate) if key[0] == crate}

    def crate_of(self, path):
        return path.relative_to(TOP / "crates").parts[0]

    def definitions(self):
        for name in self.crates:
            folder = TOP / "crates" / name / "specs"
            for path in sorted(folder.rglob("*.antt")):
                yield read_definitions(name, ".".join(path.relative_to(folder).with_suffix("").parts), path.read_text())

    # The variants of an error.

    def declared(self, written, path):
        """The declaration of an error type as a file knows it, with what stands in its brackets; None of others'."""
        name, _, given = written.partition("<")
        *words, name = name.strip().split("::")
        if words and (re.fullmatch(r"[A-Z]|Self", words[0]) or not name):
            return None, []
        if words and words[0] in self.crates:
            found = self.passed_on(name, words[0])
        else:
            found = self.imported(name, path)
        found = self.errors.get(name, []) if found == [] else found or []
        if len(found) > 1:
            raise SystemExit(f"{path}: which {written}? {[str(it.path.relative_to(TOP)) for it in found]}")
        return (found[0], split_list(given[:-1])) if found else (None, [])

    def uses(self, text, name):
        """Where a file's imports have a name: paths."""
        found = []
        for use in re.findall(r"^\s*(?:pub(?:\([a-z]+\))? )?use ([^;]*);", text, re.M):
            if re.search(rf"\b{name}\b(?! as)", use):
                found.append([word for word in re.split(r"\W+", use) if word])
        return found

    def imported(self, name, path):
        """The declarations that a name may mean in a file."""
        here = [it for it in self.errors.get(name, []) if it.path == path]
        return here or self.by_uses(name, self.uses(self.texts[path], name), self.crate_of(path), path)

    def by_uses(self, name, uses, crate, path):
        for words in uses:
            if words[0] in self.crates:
                return self.passed_on(name, words[0])
            if words[0] == "std":
                return None
            own = [it for it in self.errors.get(name, []) if it.crate == crate]
            if own:
                return [it for it in own if it.path.stem in words or it.path.parent.name in words] or own
            return self.passed_on(name, crate, path)
        return [it for it in self.errors.get(name, []) if it.crate == crate]

    def passed_on(self, name, crate, but=None):
        """The declarations that a crate's name may mean: its own, or those that its root or a module passes on."""
        own = [it for it in self.errors.get(name, []) if it.crate == crate]
        if own:
            return own
        for path, text in self.of_crate[crate]:
            if path != but and name in text:
                uses = [words for words in self.uses(text, name) if words[0] in self.crates and words[0] != crate]
                if uses:
                    return self.passed_on(name, uses[0][0])
        return []

    def leaves(self, written, path, deep=0):
        """The variants of an error type: names, each with an answer that has it."""
        if re.match(r"\d", written):
            return [(status, Con(status, of_error=True)) for status in written.split("|")]
        declared, given = self.declared(written, path)
        if declared is None or deep > 4 or not declared.parts and declared.is_enum:
            return [("", OF_ERROR)]
        if not declared.is_enum:
            return list(self.of_struct(declared, given, deep))
        return [leaf for part in declared.parts for leaf in self.of_variant(declared, part, given, deep)]

    def of_struct(self, declared, given, deep):
        if not declared.parts:
            return [("", Con(declared.name, of_error=True))]
        inner = [(name, kind) for name, (kind,) in declared.parts if name == "error"]
        if not inner:
            return [("", OF_ERROR)]
        kind = given[0] if given and re.fullmatch(r"[A-Z]", inner[0][1]) else inner[0][1]
        others = tuple((name, OF_LEFT) for name, _ in declared.parts if name != "error")
        return [(name, Fields((("error", it), *others))) for name, it in self.leaves(kind, declared.path, deep + 1)]

    def of_variant(self, declared, part, given, deep):
        name, kinds = part
        if len(kinds) == 1:
            kind = given[0] if given and re.fullmatch(r"[A-Z]", kinds[0]) else kinds[0]
            if kind == "Infallible":
                return
            inner, _ = self.declared(kind, declared.path)
            if inner is not None and (inner.is_enum and inner.parts):
                for below, it in self.leaves(kind, declared.path, deep + 1):
                    yield f"{name}.{below}", Con(name, (it,), True)
                return
        yield name, Con(name, tuple(OF_ERROR for _ in kinds), True)

    # What clauses say.

    def statements_of(self, call):
        """The clauses of a call that speak of its answer: names and terms."""
        try:
            return [(name, parse(text)) for name, text in call.clauses if re.search(r"\bresult\b", text)]
        except ValueError as why:
            raise SystemExit(f"{call.path}:{call.line}: a clause can't be read: {why}") from None

    def left_of(self, call):
        """The variants of a call's error, each with what is left of each clause where that is answered."""
        module = Module(call.crate, "")
        read_imports(module, self.texts[call.path])
        clauses = self.statements_of(call)
        for name, error in self.leaves(call.error, call.path):
            names = {"result": error if call.error[0].isdigit() else Con("Err", (error,), True)}
            yield name or ("growth" if is_growth(call) else "-"), [(clause, self.follower.says(term, names, module)) for clause, term in clauses]

    def silent(self, call):
        """The variants of which no clause says anything."""
        return [name for name, clauses in self.left_of(call) if not any(it in (SAYS, FALSE) for _, it in clauses)]


def is_growth(call):
    """Whether a call's only error is a refused growth."""
    return call.error.split("<")[0].split("::")[-1] in GROWTHS


def rows_of(libraries):
    """The variants of which no clause says anything, by call."""
    return [(call, name) for call in libraries.calls for name in libraries.silent(call)]


def read_reasons():
    """Each reason with the call and the variant that it is for, which may be patterns."""
    for number, line in enumerate(REASONS.read_text().splitlines(), 1):
        if line and not line.startswith("#"):
            parts = line.split("\t")
            if len(parts) != 3 or not re.match(rf"({'|'.join(WORDS)}): .", parts[2]):
                raise SystemExit(f"{REASONS.name}:{number}: a call, variants and a reason are wanted, with tabs between them")
            yield from ((parts[0], name, parts[2]) for name in parts[1].split(","))


def reason_of(reasons, call, name):
    """The first reason for a row: what it is, and its place."""
    for at, (calls, names, why) in enumerate(reasons):
        if fnmatch.fnmatchcase(call.label(), calls) and name == names:
            return at, why
    return None, ""


def prune(stale):
    """Takes reasons out of the file."""
    lines = []
    for line in REASONS.read_text().splitlines():
        parts = line.split("\t")
        if len(parts) == 3:
            parts[1] = ",".join(name for name in parts[1].split(",") if (parts[0], name) not in stale)
        if len(parts) != 3 or parts[1]:
            lines.append("\t".join(parts))
    REASONS.write_text("\n".join(lines) + "\n")


def compare(libraries, is_listed, is_pruned):
    """Compares rows and reasons; how many rows have none, and reasons no row."""
    reasons, used, faults = list(read_reasons()), set(), 0
    counts = collections.Counter()
    for call, name in rows_of(libraries):
        at, why = reason_of(reasons, call, name)
        used.add(at)
        counts[why.partition(":")[0]] += 1
        place = f"{call.path.relative_to(TOP)}:{call.line}"
        if at is None:
            faults += 1
            print(f"{place}: {call.label()}: no clause says anything of {name}, and there is no reason")
        elif is_listed:
            print(f"{place}: {call.label()}: {name}: {why}")
    stale = [reason[:2] for at, reason in enumerate(reasons) if at not in used]
    for calls, name in stale:
        print(f"{REASONS.name}: {calls}: {name}: a reason without a row{', taken out' if is_pruned else ''}")
    if is_pruned:
        prune(set(stale))
    faults += 0 if is_pruned else len(stale)
    said = ", ".join(f"{counts[word]} {word}" for word in WORDS)
    print(f"{len(libraries.calls)} calls; errors of which no clause says anything: {said}")
    return faults


def follow(libraries, word):
    """Prints what is left of each clause of some calls."""
    for call in libraries.calls:
        if word in call.label():
            print(f"{call.label()} ({call.path.relative_to(TOP)}:{call.line}) {call.error}")
            for name, clauses in libraries.left_of(call):
                print(f"    {name}: {', '.join(f'{clause} {it}'.strip() for clause, it in clauses)}")


def main():
    parser = argparse.ArgumentParser()
    parser.add_argument("--list", action="store_true")
    parser.add_argument("--prune", action="store_true")
    parser.add_argument("--follow", metavar="WORD")
    args = parser.parse_args()
    libraries = Libraries()
    if args.follow:
        follow(libraries, args.follow)
        return 0
    return 1 if compare(libraries, args.list, args.prune) else 0


if __name__ == "__main__":
    sys.exit(main())
