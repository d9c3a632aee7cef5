"""Which files of a cache there are for the folder that is being made, where copies of each stand, and what is handed to helpers."""

import os
import re

import caches
from helpers import Part

# What `rpki_check bundle` takes: entries of all folders, and octets of a bundle, whose lengths have 32 bits.
MOST_ENTRIES, MOST_OCTETS = 1_000_000, (1 << 32) - (1 << 24)
# What a bundle has of an object besides its URI and octets: lengths, and two verdicts.
BESIDES = 256
# So many copies are handed to a helper at once.
PIECE_FILES = 200
# A copy is kept as one number: octets above, and below in so many bits the number of its root.
ROOT_BITS = 32
ROOT_MASK = (1 << ROOT_BITS) - 1

NO_OCTETS = "more than rpki_check takes: octets"
CLASH = "a folder has its path, or a file has that of its folder"

URI = re.compile(r"(rsync://[!-.0-~]+/[!-.0-~]+(/[!-~]*)?|https://[!-.0-~]+(/[!-~]*)?)\Z")


def path_of(uri):
    """The path below OUT of a URI's object, with scheme and host in lower case; None where it is no file's."""
    scheme, _, rest = uri.partition("://")
    host, slash, path = rest.partition("/")
    key = f"{scheme.lower()}://{host.lower()}{slash}{path}"
    names = path.split("/")
    if not URI.match(key) or not all(map(caches.NAME.match, [host, *names])) or {".", ".."} & {host, *names}:
        return None
    found = key.replace("://", "/", 1)
    return found if len(names) < caches.MOST_FOLDERS and len(found) <= caches.MOST_PATH else None


def uri_of(path):
    """The URI of the object with that path below OUT."""
    return path.replace("/", "://", 1)


def anchor_files(walk, tals):
    """The trust anchors that rpki-client keeps under their locators' names: the root, path below OUT, and file of each."""
    for name, _, uris, _ in tals:
        for start in ("ta", ".ta"):
            root = caches.Root(caches.Place([start, name]), fixed=(start, name))
            for file, size in walk.files_in((start, name)):
                for path in filter(None, map(path_of, uris)):
                    out, _, last = path.rpartition("/")
                    if last == file and file.lower().endswith(".cer"):
                        yield root, out, [(file, size)]


def pieces_of(parts):
    """The parts in lists of so many copies that a helper has some work and others don't wait for it."""
    piece, count = [], 0
    for part in parts:
        piece.append(part)
        count += len(part.files) if part.places is None else sum(map(len, part.places))
        if count >= PIECE_FILES:
            yield piece
            piece, count = [], 0
    if piece:
        yield piece


class Listing:
    """What a cache has: of each folder, by its path below OUT, the files by their names, each with where its copies stand."""

    def __init__(self, tell, entries):
        # `entries` are those that OUT has besides objects
        self.tell, self.entries = tell, entries
        self.roots, self.folders, self.clashes = [], {}, set()
        # the numbers of the roots that weren't listed to their end, by scheme and host
        self.cut = {}
        self.count = self.octets = 0

    def add_root(self, root):
        self.roots.append(root)
        return len(self.roots) - 1

    def add(self, number, out, files):
        """Adds the files of a folder, each a name and its octets, that stand below the root of that number."""
        held = self.folder(out)
        before = len(held)
        for name, size in files:
            copy = size << ROOT_BITS | number
            other = held.get(name)
            if isinstance(other, list):
                other.append(copy)
            elif other is not None:
                held[name] = [other, copy]
            elif len(out) + 1 + len(name) > caches.MOST_PATH:
                self.tell(caches.TOO_LONG, "/".join((*self.roots[number].names(out), name)), size)
            else:
                held[name] = copy
                self.octets += size + len(out) + len(name) + BESIDES
                if f"{out}/{name}" in self.folders:
                    self.clashes.add(f"{out}/{name}")
        self.count += len(held) - before

    def add_cut(self, number, out):
        """Notes that the root of that number has more than was listed of this host."""
        self.cut.setdefault(out, []).append(number)

    def look(self, walk, out, names):
        """Adds the files of these names in a folder that weren't listed, where the host has more than was listed."""
        for number in self.cut.get("/".join(out.split("/")[:2]), ()):
            held = self.folders.get(out, {})
            missing = [name for name in names if name not in held or number not in roots_of(held[name])]
            found = walk.find(self.roots[number].names(out), missing)
            if found:
                self.add(number, out, found)

    def folder(self, out):
        """The files of a folder, which is added with those around it where it isn't there."""
        held = self.folders.get(out)
        if held is not None:
            return held
        made, path = self.folders.setdefault(out, {}), out
        while "/" in path:
            above, _, name = path.rpartition("/")
            if name in self.folders.get(above, ()):
                self.clashes.add(path)
            if above in self.folders:
                break
            self.folders[above] = {}
            path = above
        return made

    def is_over(self):
        """Whether there is more than one bundle takes."""
        return self.octets > MOST_OCTETS or self.entries + self.count + len(self.folders) > MOST_ENTRIES

    def heaviest(self):
        """The octets of the folder that has most."""
        return max((sum(map(size_of, held.values())) for held in self.folders.values()), default=0)

    def copies(self, path):
        """The numbers of the roots below which copies of a path stand, in order."""
        out, _, name = path.rpartition("/")
        found = self.folders.get(out, {}).get(name)
        return [] if found is None else roots_of(found)

    def size(self, path):
        """The octets of a path's first copy, as they were listed."""
        out, _, name = path.rpartition("/")
        return size_of(self.folders[out][name])

    def place(self, number, path):
        """The names that lead to the folder of a path's copy, below the root of that number."""
        return self.roots[number].names(path.rpartition("/")[0])

    def several(self):
        """The paths of which more than one copy stands there."""
        for out, held in self.folders.items():
            yield from (f"{out}/{name}" for name, found in held.items() if isinstance(found, list))

    def remove(self, out, name):
        """Takes a file back, all its copies: its octets."""
        found = self.folders[out].pop(name)
        self.count -= 1
        self.octets -= size_of(found) + len(out) + len(name) + BESIDES
        return size_of(found)

    def leave(self, why, path, authority=None):
        """Takes a file back and tells why, of each of its copies."""
        out, _, name = path.rpartition("/")
        numbers = self.copies(path)
        size = self.remove(out, name)
        for number in numbers:
            self.tell(why, "/".join((*self.roots[number].names(out), name)), size, authority)

    def leave_below(self, why, tops):
        """The same of all files below folders of these paths."""
        for out in list(self.folders):
            if any(above in tops for above in around(out)):
                for name in list(self.folders[out]):
                    self.leave(why, f"{out}/{name}")
                del self.folders[out]


def around(path):
    """A path, and those of the folders around it."""
    while path:
        yield path
        path = path.rpartition("/")[0]


def size_of(found):
    """The octets of a file, as they were listed of its first copy."""
    return (found[0] if isinstance(found, list) else found) >> ROOT_BITS


def roots_of(found):
    """The numbers of the roots below which copies of a file stand."""
    return [copy & ROOT_MASK for copy in found] if isinstance(found, list) else [found & ROOT_MASK]


class Taking:
    """What of a listing is handed out to be taken, and what became of it."""

    def __init__(self, listing, folder, progress):
        self.listing, self.folder, self.progress = listing, os.open(folder, caches.FOLDER), progress
        self.count = self.octets = self.bundled = self.newest = 0
        # the paths of which copies differ and nothing is taken yet
        self.differing = []

    def has(self, path):
        """Whether the object with that path was taken."""
        return bool(self.listing.copies(path)) if path else False

    def parts(self, wanted=None):
        """All that is listed, for helpers. Of paths with several copies that one is taken whose digest `wanted` has; where
        there is no `wanted`, none is taken of copies that differ."""
        for out, held in self.listing.folders.items():
            single, several = {}, []
            for name, found in held.items():
                if isinstance(found, list):
                    several.append(name)
                else:
                    single.setdefault(found & ROOT_MASK, []).append(name)
            for number, names in single.items():
                for at in range(0, len(names), PIECE_FILES):
                    yield Part(out, [self.listing.roots[number].names(out)], names[at : at + PIECE_FILES], None, None)
            for name in several:
                yield self.part(f"{out}/{name}", wanted)

    def part(self, path, wanted):
        """The part of one file with several copies."""
        out, _, name = path.rpartition("/")
        folders = [self.listing.place(number, path) for number in self.listing.copies(path)]
        return Part(out, folders, [name], [range(len(folders))], wanted and [wanted.get(path)])

    def again(self, wanted):
        """What wasn't taken since its copies differ: now the one whose digest is wanted is taken, or the first."""
        paths, self.differing = self.differing, []
        return (self.part(path, wanted) for path in paths)

    def note(self, parts, taken):
        """Notes what became of parts that were handed out."""
        for part, one in zip(parts, taken):
            for name in one.missing:
                self.listing.remove(part.out, name)
            self.differing += (f"{part.out}/{name}" for name in one.differing)
            gone = {*one.missing, *one.differing}
            names = [name for name in part.files if name not in gone]
            self.count += len(names)
            self.octets += one.octets
            self.newest = max(self.newest, one.newest)
            self.bundled += one.octets + len(names) * (BESIDES + len(part.out)) + sum(map(len, names))
            if names and self.bundled > MOST_OCTETS:
                self.drop(part, names, one.octets)
        self.progress("files", self.count)

    def drop(self, part, names, octets):
        """Takes files back, which have grown since they were listed: there are too many octets now."""
        for name in names:
            os.remove(f"{part.out}/{name}", dir_fd=self.folder)
            self.listing.leave(NO_OCTETS, f"{part.out}/{name}")
        self.count -= len(names)
        self.octets -= octets
