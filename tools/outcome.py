"""What became of a run of validate.py, for those who look after it: as JSON, as text, and as lists of all that is named."""

import collections
import dataclasses
import json
import os
import resource
import time

import built
import guards
import lines_to
import reports
import statuses

# So many characters of lists are kept; and so many contested URIs are told by name.
MOST_LISTED, MOST_CONTESTED = 1 << 26, 20
PIECE = 1 << 16

# What the JSON for routers has of exceptions.
SLURM_TOLD = ("version", "removed", "added", "unused")


@dataclasses.dataclass
class Outcome:
    """What is known of a run so far; a run that fails leaves the rest as it is here. `earlier` is what the run that made the file
    that stands told of it, or None."""

    given: object
    earlier: dict
    began: float = dataclasses.field(default_factory=time.time)
    status: int = statuses.WELL
    why: str = None
    counts: object = None
    proved_counts: object = None
    reasons: dict = None
    reasons_unknown: str = None
    anchors: dict = None
    anchors_unknown: str = None
    quarantined: list = dataclasses.field(default_factory=list)
    slurm: dict = None
    guards: list = dataclasses.field(default_factory=list)
    gone: dict = None
    digests: dict = dataclasses.field(default_factory=dict)
    report: dict = dataclasses.field(default_factory=dict)
    verdicts: dict = None
    lists: str = None
    is_new: bool = False

    def parted(self):
        """Whether the file lacks what some authority publishes."""
        return bool(self.quarantined or self.report.get("contested"))

    def proved(self):
        """Whether the program that made the lines was built with its proof; None where that isn't known."""
        return self.given.checker.is_proved

    def standing(self):
        """What is known of the file that stands."""
        if not self.is_new:
            return self.earlier
        numbers = {"origins": self.counts.origins, "customers": self.counts.customers, "anchors": self.anchors}
        return {"moment": self.given.moment, "status": self.status, **numbers}

    def as_dict(self, steps):
        """As JSON has it; `steps` may be None, where none was begun."""
        proved = self.proved_counts
        return {
            "status": self.status,
            "why": self.why,
            "forced": bool(self.guards) and self.given.force,
            "moment": self.given.moment,
            "began": round(self.began),
            "ended": round(time.time()),
            "form": self.given.outs[0].form,
            "out": self.given.first,
            "outs": [out._asdict() for out in self.given.outs],
            "tools": built.tools_digest(),
            "programs": {one.name: one.as_dict() for one in (self.given.checker, self.given.asker)},
            "proved": self.proved(),
            "origins": self.counts and self.counts.origins,
            "customers": self.counts and self.counts.customers,
            "refused": proved and proved.causes,
            "reasons": self.reasons,
            "reasons_unknown": self.reasons_unknown,
            "anchors": self.anchors,
            "anchors_unknown": self.anchors_unknown,
            "locators": self.report.get("locators"),
            "newest_file": self.report.get("newest_file"),
            "quarantined": self.quarantined,
            "contested": self.report.get("contested", []),
            "left_out": self.report.get("left_out", []),
            "slurm": self.slurm,
            "guards": self.guards,
            "gone": self.gone,
            "standing": self.standing(),
            "lists": self.lists,
            "sha256": self.digests,
            **self.taken(steps),
            "verdicts": self.verdicts,
        }

    def taken(self, steps):
        """What the steps took, and the whole: seconds, processor seconds, octets of memory."""
        used = [resource.getrusage(who) for who in (resource.RUSAGE_SELF, resource.RUSAGE_CHILDREN)]
        memory = {"validate.py": used[0].ru_maxrss << 10, **(steps.memory if steps else {})}
        return {
            "seconds": dict(steps.seconds) if steps else {},
            "processor_seconds": dict(steps.processor_seconds) if steps else {},
            "memory": memory,
            "whole": {
                "seconds": round(time.time() - self.began, 3),
                "processor_seconds": round(sum(one.ru_utime + one.ru_stime for one in used), 3),
                "memory": max(memory.values()),
            },
        }

    def metadata(self):
        """What the JSON for routers tells beside its counts."""
        told = {} if self.proved() is None else {"proved": self.proved()}
        told |= {"bundle": self.digests["bundle"]} if "bundle" in self.digests else {}
        told |= {"quarantined": [one["authority"] for one in self.quarantined]} if self.quarantined else {}
        contested = self.report.get("contested", [])
        told |= {"contested": [contest(one) for one in contested[:MOST_CONTESTED]]} if contested else {}
        told |= {"slurm": {name: self.slurm[name] for name in SLURM_TOLD}} if self.slurm else {}
        return told


def contest(one):
    """A contested URI with the two who claim it."""
    return {"uri": one["uri"], "stands": one["stands"]["authority"], "loses": [row["authority"] for row in one["loses"]]}


# What is told at the end, each line with its level.


def text(outcome, steps):
    """The summary's lines; of a run that failed, those of what is known."""
    yield "info", f"{outcome.given.checker.name}: {outcome.given.checker.text()}"
    if outcome.proved_counts:
        yield from text_of_lines(outcome)
    yield from text_of_report(outcome)
    yield from text_of_parted(outcome)
    yield from text_of_guards(outcome)
    if outcome.lists:
        yield "info", f"all names behind '..': {outcome.lists}"
    if steps:
        yield "info", f"seconds: {', '.join(times(steps))}"


def text_of_lines(outcome):
    counts, proved = outcome.counts or outcome.proved_counts, outcome.proved_counts
    refused = ", ".join(f"{cause} {count:,}" for cause, count in proved.causes.items()) or "nothing"
    yield "info", f"moment {outcome.given.moment}: {counts.origins:,} origins, {counts.customers:,} customers"
    yield "info", f"refused: {refused}"
    yield from (("warning", f"refused {name} {cause}") for name, cause in proved.locators)
    if outcome.reasons_unknown:
        yield "notice", f"reasons: not known: {outcome.reasons_unknown}"
    elif outcome.reasons:
        yield "info", "reasons: " + ", ".join(f"{reason} {count:,}" for reason, count in outcome.reasons.items())
    if outcome.anchors_unknown:
        yield "notice", f"origins by trust anchor: not known: {outcome.anchors_unknown}"
    elif outcome.anchors is not None:
        rows = (f"{name} {one['origins']:,}" for name, one in outcome.anchors.items())
        yield "info", f"origins by trust anchor: {', '.join(rows)}"


def text_of_report(outcome):
    """What verdicts.py reports that an operator should look at."""
    if apart := guards.apart(outcome.given.moment, outcome.report.get("newest_file")):
        yield "warning", apart
    # (verdicts.py has told how many files there are for each reason, and not whose)
    for row in outcome.report.get("left_out", []):
        if row["authority"]:
            yield "notice", f"left out of {row['authority']}: {row['files']:,} files, {row['octets']:,} octets: {row['why']}"
    for name in outcome.given.allow_missing_anchor:
        if name not in {one["name"] for one in outcome.report.get("locators") or [{"name": name}]}:
            yield "warning", f"--allow-missing-anchor {name}: there is no such locator"


def text_of_parted(outcome):
    """Who was left out, or lost a publication point."""
    for row in outcome.quarantined:
        yield "warning", f"QUARANTINED: {row['authority']} and what is below it, {reach_text(row['reach'])}"
    contested = outcome.report.get("contested", [])
    yield from (("warning", reports.words(one)) for one in contested[:MOST_CONTESTED])
    if len(contested) > MOST_CONTESTED:
        yield "warning", f"CONTESTED {len(contested):,} in all, .."


def text_of_guards(outcome):
    """What is missing, and below which trust anchor."""
    level = "warning" if outcome.given.force else "error"
    yield from ((level, f"MISSING: {row['why']}") for row in outcome.guards)
    gone = outcome.gone or {}
    if "unknown" in gone:
        yield "warning", f"how many origins are gone isn't known: {gone['unknown']}"
    elif gone.get("gone"):
        more = ", .." if gone["gone"] > len(gone["first"]) else ""
        yield "info", f"gone: {gone['gone']:,} of {gone['before']:,} origins ({', '.join(gone['first'])}{more})"
    if outcome.guards:
        before = outcome.earlier and outcome.earlier["anchors"]
        yield from (("warning", f"MISSING: {line}") for line in guards.fewer(before, outcome.anchors))


def times(steps):
    used = steps.processor_seconds
    return (f"{name} {seconds:.1f} (processor {used[name]:.1f})" for name, seconds in steps.seconds.items())


def reach_text(reach):
    """Which lines may have changed by what was left out."""
    if reach is None:
        return "by which it isn't known what changes"
    if "locator" in reach:
        return "by which anything may change"
    numbers = ", ".join(f"{kind} {runs}" for kind, runs in reach.items() if runs)
    return f"by which nothing changes outside {numbers}" if numbers else "by which nothing more changes"


# Lists of all that is named.


def lists(outcome, work):
    """The text of all lists, piece by piece, each list below a line that says what it is; nothing where there is none."""
    left = MOST_LISTED
    for title, path in paths_of_lists(outcome, work):
        yield f"# {title}\n"
        with open(path, errors="backslashreplace") as file:
            while piece := file.read(min(PIECE, left)):
                left -= len(piece)
                yield piece
            yield "\n" if not file.read(1) else "..\n\n"
    slurm = outcome.slurm or {}
    told = {"contested": outcome.report.get("contested"), "filters": slurm.get("filters"), "assertions": slurm.get("assertions")}
    for title, rows in told.items():
        if rows:
            yield f"# {title}\n"
            yield from (f"{json.dumps(one)}\n" for one in rows)
            yield "\n"


def paths_of_lists(outcome, work):
    for row in outcome.report.get("left_out", []):
        path = work.path(os.path.basename(row["all"])) if row.get("all") else None
        if path and os.path.isfile(path):
            yield f"left out: {row['why']}{' of ' + row['authority'] if row.get('authority') else ''}: {row['files']}", path
    if outcome.gone and outcome.gone.get("gone") and os.path.isfile(work.path("gone")):
        yield f"gone from {outcome.gone['file']}: {outcome.gone['gone']}", work.path("gone")


def read_earlier(path):
    """What the run before wrote of the file that stands; nothing where there is no such status."""
    try:
        with open(path) as file:
            found = json.load(file)["standing"]
        numbers = [row[name] for row in (found, *(found["anchors"] or {}).values()) for name in ("origins", "customers")]
        is_sound = lines_to.is_moment(found["moment"]) and all(isinstance(one, int) for one in numbers)
    except (OSError, ValueError, KeyError, TypeError, AttributeError):
        return None
    return found if is_sound else None


def counted(reasons):
    """How many there are of each, in order."""
    return dict(sorted(collections.Counter(reasons).items()))
