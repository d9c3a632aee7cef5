"""What is left out of a bundle: counts by reason and by authority, the first paths of each, and a file with all of them."""

import collections
import os
import re

# So many paths are told of each reason in a summary, and in a report; each cut to so many characters.
MOST_NAMES, MOST_FIRST, MOST_NAME = 3, 10, 200
# So many authorities are told by name of each reason, those with the most octets; the others together.
MOST_AUTHORITIES = 20
NOT_PLAIN = re.compile(r"[^ -\[\]-~]")
LIST = "{}.left-out.{}"


def plain(name):
    """A name in printable ASCII, since names of a cache are whatever its publishers like."""
    return NOT_PLAIN.sub(lambda found: found[0].encode("unicode_escape", "surrogateescape").decode(), os.fsdecode(name))


def shown(name):
    text = plain(name)
    return text if len(text) <= MOST_NAME else text[: MOST_NAME - 2] + ".."


class Left:
    """What one reason has of one authority, or of nobody that is known."""

    def __init__(self):
        self.files, self.octets, self.first = 0, 0, []

    def add(self, files, octets, names):
        self.files += files
        self.octets += octets
        if len(self.first) < MOST_FIRST or min(names) < self.first[-1]:
            self.first = sorted({*self.first, *names})[:MOST_FIRST]


class LeftOuts:
    """All that one process leaves out. Each path is a line of its file, behind the reason and the authority."""

    def __init__(self, path):
        self.rows, self.paths = {}, [path]
        self.file = open(path, "xb")

    def row(self, why, authority):
        return self.rows.setdefault((why, authority), Left())

    def add(self, why, name, octets=0, authority=None):
        self.row(why, authority).add(1, octets, [name])
        self.file.write(f"{why}\t{authority or ''}\t{plain(name)}\n".encode())

    def close(self):
        """Writes out what is kept back; nothing more is added."""
        if self.file:
            self.file.close()
            self.file = None

    def merge(self, other):
        for (why, authority), left in other.rows.items():
            self.row(why, authority).add(left.files, left.octets, left.first)
        self.paths += other.paths

    def by_reason(self):
        """A row for each reason, in order, as a summary has them."""
        found = {}
        for (why, _), left in self.rows.items():
            found.setdefault(why, Left()).add(left.files, left.octets, left.first)
        return [
            {"why": why, "count": left.files, "octets": left.octets, "names": [shown(name) for name in left.first[:MOST_NAMES]]}
            for why, left in sorted(found.items())
        ]

    def folded(self):
        """What each reason has, by authority; those behind the first are nobody's that is told by name. With it, which of them each
        pair of a reason and an authority belongs to."""
        found, where, told = {}, {}, collections.Counter()
        for (why, authority), left in sorted(self.rows.items(), key=lambda row: (-row[1].octets, row[0][0], row[0][1] or "")):
            key = why, authority if told[why] < MOST_AUTHORITIES else None
            told[why] += authority is not None
            found.setdefault(key, Left()).add(left.files, left.octets, left.first)
            where[why, authority or ""] = key
        return found, where

    def report(self, path=None):
        """The rows of a report, in order; with the report's path all paths are listed, too, in files beside it."""
        found, where = self.folded()
        order = sorted(found, key=lambda key: (key[0], key[1] or ""))
        lists = self.write_lists(path, where, [key for key in order if found[key].files > MOST_FIRST]) if path else {}
        return [
            {
                "why": why,
                "files": found[why, authority].files,
                "octets": found[why, authority].octets,
                "authority": authority,
                "first": [shown(name) for name in found[why, authority].first],
                "all": lists.get((why, authority)),
            }
            for why, authority in order
        ]

    def write_lists(self, path, where, keys):
        """Writes a list for each of these keys: the names of the files."""
        folder, name = os.path.split(os.path.abspath(path))
        remove_lists(folder, name)
        names = {key: LIST.format(name, number) for number, key in enumerate(keys)}
        files = {key: open(os.path.join(folder, one), "xb") for key, one in names.items()}
        try:
            for part in self.paths:
                with open(part, "rb") as lines:
                    for line in lines:
                        why, authority, text = line.split(b"\t", 2)
                        if file := files.get(where[why.decode(), authority.decode()]):
                            file.write(text)
        finally:
            for file in files.values():
                file.close()
        return names


def remove_lists(folder, name):
    """Removes the lists of an earlier report of that name."""
    for entry in os.listdir(folder):
        if re.fullmatch(re.escape(name) + r"\.left-out\.[0-9]+", entry):
            os.remove(os.path.join(folder, entry))
