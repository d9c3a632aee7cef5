"""What a run of verdicts.py tells: counts by reason with a few names each, as text and as JSON."""

import json
import os
import re

# So many names are told with a reason, each cut to so many characters.
MOST_NAMES, MOST_NAME = 3, 200
NOT_PLAIN = re.compile(r"[^ -\[\]-~]")


def shown(name):
    """A name in printable ASCII, since names of a cache are whatever its publishers like."""
    text = NOT_PLAIN.sub(lambda found: found[0].encode("unicode_escape", "surrogateescape").decode(), os.fsdecode(name))
    return text if len(text) <= MOST_NAME else text[: MOST_NAME - 2] + ".."


class Tally:
    """How often each reason was told, and the first names in order."""

    def __init__(self):
        self.counts, self.names = {}, {}

    def add(self, why, name, count=1):
        self.counts[why] = self.counts.get(why, 0) + count
        names = self.names.setdefault(why, [])
        if len(names) < MOST_NAMES or name < names[-1]:
            self.names[why] = sorted({*names, name})[:MOST_NAMES]

    def merge(self, other):
        for why, count in other.counts.items():
            self.counts[why] = self.counts.get(why, 0) + count
            self.names[why] = sorted({*self.names.get(why, ()), *other.names[why]})[:MOST_NAMES]

    def rows(self):
        """A row for each reason, in order."""
        return [
            {"why": why, "count": count, "names": [shown(name) for name in self.names[why]]}
            for why, count in sorted(self.counts.items())
        ]


def text(summary):
    """The summary's lines."""
    found = summary["signatures"]
    lines = [
        f"layout {summary['layout']}: {summary['objects']:,} objects, {summary['locators']:,} locators, "
        f"{summary['verdicts']:,} verdicts",
        f"  signatures: {found['found']:,} found, {found['known']:,} known, {found['computed']:,} computed, "
        f"{found['bad']:,} bad, {found['no_key']:,} without a key",
    ]
    lines += [f"  good signatures of .{kind}: {count:,}" for kind, count in summary["good"].items()]
    for title, rows in (("left out", summary["left_out"]), ("no verdict", summary["not_good"])):
        for row in rows:
            more = ", .." if row["count"] > len(row["names"]) else ""
            lines.append(f"  {title}: {row['why']}: {row['count']:,} ({', '.join(row['names'])}{more})")
    lines += [f"  {note}" for note in summary["notes"]]
    if summary["differing"]:
        lines.append(f"  other octets under a URI that an earlier place has: {summary['differing']:,}")
    lines += [f"  no trust anchor of the locator {name} is in the cache" for name in summary["missing_anchors"]]
    return "".join(line + "\n" for line in lines)


def write_json(path, summary):
    """Writes the summary to a file, by one beside it."""
    made = f"{path}.{os.getpid()}.new"
    try:
        with open(made, "x") as file:
            json.dump(summary, file, indent=2)
            file.write("\n")
        os.replace(made, path)
    except BaseException:
        if os.path.lexists(made):
            os.remove(made)
        raise
