#!/usr/bin/env python3
"""Tries wrong bodies of crates, at the gate and beside it: the check must refuse each.

    edits.py [--in FOLDER] [--stale] [--built] CRATE[/NAME]..
    edits.py --list [CRATE..]
    edits.py --fits

Of each crate the edits of crates/CRATE/must-fail and tests/edits/CRATE are tried, or the named one; with --stale only
those that weren't tried since their function changed. In FOLDER, or in a temporary folder, copies of the crate and
of those below it are made, with their out/. The crate has to be proved as it stands. Then edits of different functions
are applied together, a few at a time, and these functions alone are checked, with those that they call; the check names
each one that has no proof. An edit that isn't refused so, since another function refuses it, or since one that its own
function calls was refused, is tried again alone by a check of the whole crate.

A line says of each whether it was refused. tests/edits/TRIED.tsv keeps what was tried, each with a digest of the edit and of
the functions that it turns: their contracts and bodies as they stood, without comments and the formatter's layout, and
without the crates and modules in paths. The definitions that a contract names and the functions that a body calls aren't
in it. Of an edit outside functions it has the whole file.

--list prints the edits that weren't tried since their function changed, or weren't refused, and exits with 1 where there are
some. --fits checks nothing, and prints the edits that can't be applied, since a text of theirs doesn't stand in its file just
once. With --built the crate's library is there, built from the text as it stands, and is taken as proved, so that only the
functions of edits are checked, and what none of them refuses isn't tried. Otherwise exits with 1 where an edit wasn't refused
or can't be applied.
"""

import argparse
import datetime
import fcntl
import glob
import hashlib
import os
import re
import subprocess
import sys
import tempfile

HERE = os.path.dirname(os.path.abspath(__file__))
EDITS = os.path.join(HERE, os.pardir, "edits")
TRIED = os.path.join(EDITS, "TRIED.tsv")
REFUSED = "refused"
# So many edits stand in one copy at most: where the check stops before it has a verdict, each is tried alone.
MOST_TOGETHER = 8
sys.dont_write_bytecode = True
sys.path.insert(0, os.path.join(HERE, os.pardir, os.pardir, "bench"))

import copies  # noqa: E402


# What is only for readers, a name by a path that begins at a crate, and the head of a function.
RUST_COMMENT = re.compile(r"^[ \t]*//.*$", re.MULTILINE)
RUST_PATH = re.compile(r"(?<![\w:.])(?:crate|(?:bcder|resources|certs|objects|rpki)(?:_[a-z]+)*)((?:::\w+)+)")
FUNCTION = re.compile(r'^(?P<margin> *)(?:pub(?:\([a-z]+\))? )?(?:(?:[a-z]+|"C") )*fn (?P<name>\w+)', re.MULTILINE)


def read(path):
    with open(path) as file:
        return file.read()


def write(path, text):
    with open(path, "w") as file:
        file.write(text)


def rust_meaning(text):
    """The text without comments and white space, and without the crates and modules of a path."""
    text = RUST_COMMENT.sub("", text)
    text = RUST_PATH.sub(lambda path: re.sub(r"^(?:::[a-z_0-9]+)+(?=::)|^", "", path.group(1)).removeprefix("::"), text)
    return re.sub(r",([)}\]>])", r"\1", re.sub(r"\s+", "", text))


def function_at(text, at):
    """The function of a text that has this place, with its contract, or the whole text where none has."""
    heads = [head for head in FUNCTION.finditer(text) if head.start() <= at]
    if not heads:
        return text
    end = re.compile(rf"^{heads[-1]['margin']}(?:\}}|\{{\}})$", re.MULTILINE).search(text, heads[-1].end())
    return text[heads[-1].start() : end.end()] if end and at < end.end() else text


class Edit:
    """A wrong body: its crate, its name, and the pairs of old and new text by file."""

    def __init__(self, path):
        self.crate = os.path.basename(os.path.dirname(path))
        if self.crate == "must-fail":
            self.crate = os.path.basename(os.path.dirname(os.path.dirname(path)))
        self.name = os.path.basename(path).removesuffix(".edit")
        self.text = read(path)
        self.pairs = []
        file = old = None
        for line in self.text.split("\n"):
            kind, _, text = line.partition(" ")
            if kind == "file:":
                file = text.strip()
            elif kind == "old:":
                old = text
            elif kind == "new:":
                self.pairs.append((file, old, text))

    def applied(self, texts, folder):
        """The texts by file with the edit applied to them, None where it can't be."""
        made = dict(texts)
        for file, old, new in self.pairs:
            path = os.path.join(folder, file)
            if file not in made:
                made[file] = read(path) if os.path.exists(path) else ""
            if made[file].count(old) != 1:
                return None
            made[file] = made[file].replace(old, new)
        return made

    def fits(self):
        """Whether it can be applied to the crate as it stands in the repository."""
        return bool(self.applied({}, os.path.join(copies.ROOT, "crates", self.crate)))

    def functions(self, folder):
        """The modules and functions in which the edit stands, None where a text stands in no function."""
        found = set()
        for file, old, _ in self.pairs:
            path = os.path.join(folder, file)
            text = read(path) if os.path.exists(path) else ""
            if not file.startswith("src/") or text.count(old) != 1:
                return None
            names = re.findall(r"\bfn (\w+)", text[: text.index(old) + len(old)])
            if not names:
                return None
            module = re.sub(r"(/mod)?\.rt$", "", file.removeprefix("src/")).replace("/", "::")
            found.add(("" if module in ("lib", "main") else module, names[-1]))
        return found

    def meaning(self):
        """The edit without the folders of its files."""
        return repr([(os.path.basename(file), rust_meaning(old), rust_meaning(new)) for file, old, new in self.pairs])

    def state(self, folder=None):
        """A digest of the edit and of the functions that it turns, as they stand in the folder of its crate, the repository's where
        none is given; None where it can't be applied."""
        folder = folder or os.path.join(copies.ROOT, "crates", self.crate)
        if not self.applied({}, folder):
            return None
        turned = set()
        for file, old, _ in self.pairs:
            text = read(os.path.join(folder, file)) if os.path.exists(os.path.join(folder, file)) else ""
            # (what an earlier pair writes isn't there; and a text may begin in front of the head of its function)
            if old in text:
                turned.add(rust_meaning(function_at(text, text.index(old) + len(old.rstrip()) - 1)))
        return hashlib.sha256("\n".join([self.meaning(), *sorted(turned)]).encode()).hexdigest()[:16]


def edits_of(crate, names):
    """The edits of a crate, those of the names alone where there are some."""
    folders = (os.path.join(copies.ROOT, "crates", crate, "must-fail"), os.path.join(EDITS, crate))
    found = [Edit(path) for folder in folders for path in sorted(glob.glob(os.path.join(folder, "*.edit")))]
    return [edit for edit in found if not names or edit.name in names]


def tried():
    """What was tried: of each crate and name the state, the day and the answer."""
    rows = read(TRIED).splitlines() if os.path.exists(TRIED) else []
    return {tuple(row.split("\t")[:2]): row.split("\t")[2:] for row in rows}


def is_stale(edit, rows):
    """Whether the edit wasn't tried since its function changed, or wasn't refused."""
    row = rows.get((edit.crate, edit.name))
    return row is None or row[0] != edit.state() or not row[2].startswith(REFUSED)


def record(edit, answer):
    """Writes an answer down, while no other run of this script does; rows of edits of its crate that are gone are dropped."""
    with open(TRIED, "a") as held:
        fcntl.flock(held, fcntl.LOCK_EX)
        names = {other.name for other in edits_of(edit.crate, [])}
        rows = {key: row for key, row in tried().items() if key[0] != edit.crate or key[1] in names}
        rows[edit.crate, edit.name] = [edit.state(), str(datetime.date.today()), answer]
        write(TRIED, "".join("\t".join([*key, *row]) + "\n" for key, row in sorted(rows.items())))


def check(folder, paths=()):
    """Whether the crate is proved, None where the prover wasn't reached or functions of these paths alone were checked; of
    each function how it ended; what was said."""
    words = [word for path in paths for word in ("--only", path)]
    done = subprocess.run(["rt", "check", *words], cwd=folder, capture_output=True, text=True)
    said = done.stdout + done.stderr
    verdicts = re.findall(r"^logic=(\S+)", said, re.MULTILINE)
    ends = dict(re.findall(r"^(?:fn|impl|trait|struct|enum|const) (\S+): (.*)$", said, re.MULTILINE))
    return (verdicts[-1] == "proved" if verdicts else None), ends, said


def is_refused(end):
    """Whether a function has no proof by itself, and not because it waits for another's."""
    if end.startswith("no proof"):
        return not end.startswith("no proof: it calls ")
    return end.startswith("not proved") and "waits for" not in end


def functions_of(edit, folder, ends):
    """The functions of the edit, by their paths, among those that a check named. A method has the path of its type, which may
    stand in another file."""
    found = []
    for module, function in edit.functions(folder) or ():
        words = {path: re.split(r"[:/]+", path) for path in ends}
        named = [path for path in ends if words[path][-1] == function or "fn" in words[path] and function in words[path]]
        inside = [path for path in named if module == "" or path.partition("::")[2].startswith(module + "::")]
        found += inside or named
    return found


def refused_at(edit, folder, ends):
    """The functions of the edit that were refused by themselves."""
    return [path for path in functions_of(edit, folder, ends) if is_refused(ends[path])]


def with_texts(folder, texts, call):
    """What the call answers while the files have these texts; they are put back."""
    before = {file: read(os.path.join(folder, file)) for file in texts}
    for file, text in texts.items():
        write(os.path.join(folder, file), text)
    try:
        return call()
    finally:
        for file, text in before.items():
            write(os.path.join(folder, file), text)


def try_alone(edit, folder):
    texts = edit.applied({}, folder)
    if not texts:
        return "CAN'T BE APPLIED"
    proved, ends, said = with_texts(folder, texts, lambda: check(folder))
    if proved:
        return "NOT REFUSED"
    where = refused_at(edit, folder, ends) or [path for path, end in ends.items() if is_refused(end)]
    if proved is None or not where:
        errors = [line for line in said.split("\n") if "error" in line][:1]
        return f"DIDN'T REACH THE PROVER: {' '.join(errors)[:160]}"
    return f"{REFUSED}: {' '.join(sorted(where))[:160]}"


def groups(edits, folder):
    """The edits in groups that can stand in one copy together: no two in functions of one name, each text there once, and
    not too many."""
    left = list(edits)
    while left:
        group, texts, used, others = [], {}, set(), []
        for edit in left:
            functions = {name for _, name in edit.functions(folder) or ()}
            has_room = functions and len(group) < MOST_TOGETHER and not used & functions
            made = edit.applied(texts, folder) if has_room else None
            if made is None:
                others.append(edit)
            else:
                group, texts, used = [*group, edit], made, used | functions
        if not group:
            yield from ([edit] for edit in others)
            return
        yield group
        left = others


def try_group(group, folder, known):
    """The answers to the edits of a group by a check of their functions, None for those that have to be tried alone. Known
    is how each function of the crate as it stands ended."""
    # A closure is checked with the function that it stands in, and can't be named alone.
    named = {path for edit in group for path in functions_of(edit, folder, known) if "::fn::" not in path}
    paths = {path.partition("::")[2] for path in named}
    texts = {}
    for edit in group:
        texts = edit.applied(texts, folder) if texts is not None else None
    if not paths or not texts:
        return [None for _ in group]
    _, ends, _ = with_texts(folder, texts, lambda: check(folder, sorted(paths)))
    where = [refused_at(edit, folder, ends) for edit in group]
    return [f"{REFUSED}: {' '.join(sorted(paths))[:160]}" if paths else None for paths in where]


IMPL = re.compile(r"^(?:impl|pub trait|trait)\b(?:<[^{]*?>(?= ))? ?(.*?)(?: where\b.*)?(?: \{.*)?$")


def named(text):
    """The last name of a type's path, without its parameters."""
    return re.sub(r"<.*", "", text.strip()).split("::")[-1].lstrip("&")


def functions_in(crate, folder):
    """The paths of all functions of a crate, by the text of its sources."""
    found = []
    for path in sorted(glob.glob(os.path.join(folder, "src", "**", "*.rt"), recursive=True)):
        module = re.sub(r"(/mod)?\.rt$", "", os.path.relpath(path, os.path.join(folder, "src"))).replace("/", "::")
        front = [crate] if module in ("lib", "main") else [crate, module]
        owner = []
        for line in read(path).split("\n"):
            head = IMPL.match(line)
            if head:
                trait, is_of, owned = head.group(1).partition(" for ")
                owner = [named(owned) + named(trait)] if is_of else [named(trait.partition(":")[0])]
            elif line.startswith("}"):
                owner = []
            name = re.match(r"^\s*(?:pub(?:\([a-z]+\))? )?fn (\w+)", line)
            if name:
                found.append("::".join([*front, *owner, name.group(1)]))
    return found


def try_crate(folder, crate, edits, built):
    """Tries the edits of a crate; how many were not refused."""
    copies.copy(folder, [crate], linked=built)
    crate_folder = os.path.join(folder, "crates", crate)
    if built:
        known = {path: "" for path in functions_in(crate, crate_folder)}
    else:
        proved, known, _ = check(crate_folder)
        if proved is not True:
            sys.exit(f"{crate} isn't proved as it stands")
    failures = 0
    for group in groups(edits, crate_folder):
        for edit, answer in zip(group, try_group(group, crate_folder, known)):
            answer = answer or ("not tried" if built else try_alone(edit, crate_folder))
            failures += not answer.startswith(REFUSED)
            if answer.startswith(REFUSED) or not built:
                record(edit, answer)
            print(f"{crate}/{edit.name}: {answer}", flush=True)
    return failures


def main():
    parser = argparse.ArgumentParser(description="Tries wrong bodies, which the check must refuse.")
    parser.add_argument("--in", dest="folder", help="the folder for the copies")
    parser.add_argument("--stale", action="store_true", help="only those that weren't tried since their function changed")
    parser.add_argument("--list", action="store_true", help="print those that weren't tried since their function changed")
    parser.add_argument("--built", action="store_true", help="take the crate as proved, and check functions of edits alone")
    parser.add_argument("--fits", action="store_true", help="print those that can't be applied, and check nothing")
    parser.add_argument("words", nargs="*", metavar="CRATE[/NAME]")
    given = parser.parse_args()
    wanted = {}
    for word in given.words or (sorted(copies.stands_on()) if given.list or given.fits else []):
        crate, _, name = word.partition("/")
        wanted.setdefault(crate, []).extend([name] if name else [])
    if not wanted:
        parser.error("no crate is named")
    rows = tried()
    edits = {crate: edits_of(crate, names) for crate, names in wanted.items()}
    if given.list or given.stale:
        edits = {crate: [edit for edit in found if is_stale(edit, rows)] for crate, found in edits.items()}
    if given.fits:
        lost = [edit for found in edits.values() for edit in found if not edit.fits()]
        print("\n".join([f"{edit.crate}/{edit.name}" for edit in lost] or ["all can be applied"]))
        sys.exit(1 if lost else 0)
    if given.list:
        lost = [edit for found in edits.values() for edit in found]
        print("\n".join([f"{edit.crate}/{edit.name}" for edit in lost] or ["all were tried since their functions changed"]))
        sys.exit(1 if lost else 0)
    with tempfile.TemporaryDirectory() as made:
        folder = given.folder or made
        failures = sum(try_crate(folder, crate, found, given.built) for crate, found in edits.items() if found)
    sys.exit(1 if failures else 0)


if __name__ == "__main__":
    main()
