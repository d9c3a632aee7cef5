"""The steps of validate.py: from a cache to the files for routers, one after another."""

import json
import os
import shutil
import sys

import cutting
import faults
import given as arguments
import guards
import lines_to
import quarantine
import slurm
from built import digest_of
from bundles import Bundle, Malformed
from log import parts_of
from outcome import counted
from places import publish
from statuses import BUNDLE, CHECK, FAULT, FULL, GUARD, MEMORY, PARTED, USAGE, VERDICTS, WELL, Failed, is_full
from steps import MIB, SPACE, TIME, Limits

HERE = os.path.dirname(os.path.abspath(__file__))
# So many chains `rpki_ask cost` counts at most; fewer, where that takes too long.
BUDGET = 1_000_000
# What is told beside the lines may take so many seconds, and so many times what `check` took; reasons be so many octets.
BESIDE_LEAST, BESIDE_TIMES, REASONS_OCTETS = 10, 4, 1 << 26
# For so many locators it is told what is below each.
MOST_LOCATORS = 64
OUT_OF_MEMORY = b"out of memory\n"
# What the statuses of verdicts.py mean here; another is its own fault.
OF_VERDICTS = {USAGE: USAGE, GUARD: GUARD, MEMORY: MEMORY, FULL: FULL, faults.NO_LIBRARY: FAULT}


class Run:
    """What the steps of a run share."""

    def __init__(self, given, work, steps, log, outcome):
        self.given, self.work, self.steps, self.log, self.outcome = given, work, steps, log, outcome

    def path(self, *names):
        return self.work.path(*names)

    def octets(self):
        return self.given.memory_limit * MIB or None

    def limits(self):
        """Those of each step that has no others."""
        return Limits(self.given.step_limit or None, self.octets())

    def asking(self):
        """Those of `check`, and of each question."""
        return Limits(self.given.time_limit or None, self.octets())

    def beside(self):
        """Those of what is told beside the lines: no more than a few times what `check` took."""
        seconds = BESIDE_LEAST + BESIDE_TIMES * self.steps.seconds["check"]
        return Limits(min(seconds, self.given.time_limit or seconds), self.octets())

    def call(self, name, function, *words):
        return self.steps.call(name, self.limits(), function, *words)

    def failed(self, status, what, ended):
        """Why a program that the run needs didn't do its work."""
        if ended.lacks_memory() or ended.said == OUT_OF_MEMORY:
            return Failed(MEMORY, ended.why(what) if ended.lacks_memory() else f"{what} was out of memory")
        if ended.over is None and is_full(self.work.folder):
            return Failed(FULL, f"{ended.why(what)}: the disk is full")
        return Failed(status, ended.why(what))


def follow(run, evidence):
    """All steps, up to the files in their places."""
    make_verdicts(run)
    make_bundle(run)
    make_lines(run)
    run.outcome.reasons, run.outcome.reasons_unknown = reasons(run)
    run.outcome.anchors, run.outcome.anchors_unknown = below_anchors(run)
    apply_slurm(run)
    look_at_guards(run)
    write_files(run, evidence)


# The bundle.


def make_verdicts(run):
    """A folder for `rpki_check bundle`, and what verdicts.py tells of it."""
    given = run.given
    words = [sys.executable, os.path.join(HERE, "verdicts.py"), given.cache, run.path("checked")]
    words += ["--tals", given.tals, "--moment", given.moment, "--summary", run.path("verdicts.json")]
    words += ["--report", run.path("report.json")]
    for name in arguments.HANDED:
        value = getattr(given, name)
        words += [f"--{name.replace('_', '-')}", str(value)] if value is not None else []
    words += [f"--{name}" for name in arguments.FLAGS if getattr(given, name)]
    ended = run.steps.run("verdicts", words, run.limits())
    run.outcome.report = read_json(run.path("report.json")) or {}
    run.outcome.verdicts = read_json(run.path("verdicts.json"))
    if ended.over or ended.status:
        status = OF_VERDICTS.get(ended.status, VERDICTS)
        failed = run.failed(status, "verdicts.py", ended)
        said = parts_of(ended.said.strip().rpartition(b"\n")[2])[-1]
        raise Failed(failed.status, f"{failed}: {said}" if said and not ended.over else str(failed))
    if not run.outcome.verdicts or not run.outcome.verdicts["locators"]:
        raise Failed(GUARD, f"there is no locator NAME.tal in {given.tals}")


def read_json(path):
    """What a file of JSON has; None where there is none."""
    try:
        with open(path) as file:
            return json.load(file)
    except (OSError, ValueError):
        return None


def make_bundle(run):
    """One bundle. Its folder is removed then, but for the verdicts."""
    with open(run.path("bundle"), "xb") as bundle:
        words = [run.given.checker.path, "bundle", run.path("checked")]
        ended = run.steps.run("bundle", words, run.limits(), "error", stdout=bundle)
    if ended.over or ended.status:
        raise run.failed(BUNDLE, "rpki_check bundle", ended)
    os.rename(run.path("checked", "verdicts"), run.path("verdicts"))
    shutil.rmtree(run.path("checked"))


# The lines.


def make_lines(run):
    """The lines that the bundle means, and who was left out of it so that they came out in time."""
    left_out = []
    while why := what_lacked(run):
        status, text = why
        if len(left_out) >= run.given.quarantine:
            others = f", with {len(left_out)} authorities left out" if left_out else ""
            raise Failed(status, f"rpki_check check {text}{others}")
        run.log.tell(f"rpki_check check {text}", "warning")
        left_out.append(leave_out(run, status, text))
    run.outcome.proved_counts = run.outcome.counts = counts_of(run.call("count", count, run.path("lines")))
    run.outcome.quarantined = [{**one._asdict(), "reach": reached(run, one)} for one in left_out]


def count(path):
    try:
        return lines_to.count(path)
    except lines_to.BadLine as why:
        raise Failed(CHECK, f"not lines of rpki_check: {why}") from None


def counts_of(told):
    """Counts, of their parts as JSON has them."""
    path, origins, customers, causes, locators = told
    return lines_to.Counts(path, origins, customers, causes, [lines_to.Refusal(*row) for row in locators])


def what_lacked(run):
    """Why `check` came to no end, time or memory, with the exit status for that; None where it has printed its lines."""
    with open(run.path("bundle"), "rb") as bundle, open(run.path("lines"), "wb") as lines:
        words = [run.given.checker.path, "check"]
        ended = run.steps.run("check", words, run.asking(), "error", stdin=bundle, stdout=lines)
    if ended.over == TIME:
        return CHECK, f"hadn't ended after {ended.limits.seconds} seconds"
    if ended.over == SPACE:
        return MEMORY, f"took more than {run.given.memory_limit:,} MiB of memory"
    if ended.lacks_memory():
        return MEMORY, "was killed, as it is where memory is short"
    if ended.status == 1 and ended.said == OUT_OF_MEMORY:
        return MEMORY, "was out of memory"
    if ended.status:
        raise run.failed(CHECK, "rpki_check check", ended)
    return None


def leave_out(run, status, why):
    """Takes what the authority publishes that makes most chains out of the bundle, and tells who it is."""
    lacked = f"rpki_check check {why}"
    told = run.call("quarantine", of_bundle, status, lacked, find_and_cut, run, *cost_of(run, status, lacked))
    if told is None:
        raise Failed(status, f"{lacked}, and there is no authority below which objects are read again and again: where the bundle "
                     "is large, --time-limit says how long it may take")
    found = quarantine.Found(*told)
    run.log.tell(f"QUARANTINE of {found.authority}: {chains_of(found)}; left out: {', '.join(found.manifests)}", "warning")
    if run.given.keep and not os.path.lexists(run.path("whole")):
        os.rename(run.path("bundle"), run.path("whole"))
    os.replace(run.path("cut"), run.path("bundle"))
    return found


def of_bundle(status, lacked, function, *words):
    """What a function says that reads the bundle; where that can't be read, the run ends with that status."""
    try:
        return function(*words)
    except Malformed as fault:
        raise Failed(status, f"{lacked}, and its bundle can't be read here: {fault}") from None


def find_and_cut(run, text, is_least):
    """Whom to leave out, or None; the bundle without what it publishes is `cut` then."""
    found = quarantine.find(run.path("bundle"), text, is_least)
    if found is not None:
        cutting.write_without(run.path("bundle"), run.path("cut"), found.manifests)
    return found


def chains_of(found):
    least = "at least " if found.is_least else ""
    return f"{least}{found.chains:,} chains go on below it"


def cost_of(run, status, lacked):
    """What `rpki_ask cost` prints of the bundle, and whether there are more chains than it has counted."""
    asker = run.given.asker
    if not asker.is_there():
        raise Failed(status, f"{lacked}, and {asker.path}, which would say whom to leave out, is no program")
    least = run.call("quarantine", of_bundle, status, lacked, quarantine.least_budget, run.path("bundle"))
    for budget in (BUDGET, least):
        ended, text = asked(run, "cost", str(budget))
        if ended.over is None and ended.status in (0, 1):
            return text, ended.status == 1
        if ended.over is None:
            raise Failed(status, f"{lacked}, and {ended.why('rpki_ask cost')}")
    raise Failed(status, f"{lacked}, and rpki_ask cost hadn't ended either")


def asked(run, *words):
    """How a question about the bundle ended, and what it printed."""
    with open(run.path("bundle"), "rb") as bundle, open(run.path("answer"), "w+b") as answer:
        ended = run.steps.run(words[0], [run.given.asker.path, *words], run.asking(), "error", stdin=bundle, stdout=answer)
        answer.seek(0)
        return ended, answer.read().decode("ascii", "replace")


def reached(run, found):
    """The numbers that whoever was left out can reach, by kind; None where they aren't known."""
    ended, text = asked(run, "reach", *found.manifests)
    rows = dict(line.partition(" ")[::2] for line in text.splitlines())
    return rows if ended.over is None and ended.status in (0, 1) else None


# What is told beside the lines, and never keeps them from coming out.


def reasons(run):
    """How many refused lines have each reason, and why that isn't known, if it isn't. A line that several chains refuse may have
    several reasons."""
    if not run.outcome.proved_counts.causes:
        return {}, None
    asker = run.given.asker
    if not asker.is_there():
        return None, f"{asker.path} is no program"
    try:
        with open(run.path("bundle"), "rb") as bundle, open(run.path("reasons"), "w+b") as told:
            words = [asker.path, "--json", "refusals"]
            ended = run.steps.run("refusals", words, run.beside(), "notice", stdin=bundle, stdout=told)
            size = told.seek(0, os.SEEK_END)
        if ended.over or ended.status:
            return None, ended.why("rpki_ask refusals")
        if size > REASONS_OCTETS:
            return None, "they are too many"
        found = run.call("refusals", reasons_in, run.path("reasons"))
        return found, None if found is not None else f"what {asker.path} tells aren't reasons"
    except Failed as why:
        return None, str(why)


def reasons_in(path):
    """The reasons that a file has; None where it has none."""
    try:
        with open(path) as file:
            rows = json.load(file)["refused"]
        found = {(row["name"], row["cause"], row["reason"]) for row in rows}
        return counted(reason for _, _, reason in found)
    except (ValueError, KeyError, TypeError):
        return None


def below_anchors(run):
    """How many origins and customers come of each locator, as `check` prints them of the bundle with that locator alone; and why
    that isn't known, if it isn't."""
    try:
        names = run.call("anchors", locators_of, run.path("bundle"))
        if len(names) > MOST_LOCATORS:
            return None, "there are too many locators"
        if len(names) == 1:
            return {names[0]: numbers(run.outcome.proved_counts)}, None
        found, left = {}, run.beside()
        for name in names:
            taken = run.steps.seconds["anchors"]
            found[name] = below_anchor(run, name, left)
            left = left._replace(seconds=max(1, left.seconds - run.steps.seconds["anchors"] + taken))
        return found, None
    except Failed as why:
        return None, str(why)


def locators_of(path):
    try:
        return sorted(Bundle(path).locators)
    except Malformed as why:
        raise Failed(CHECK, f"the bundle can't be read here: {why}") from None


def below_anchor(run, name, limits):
    run.steps.call("anchors", limits, cutting.write_with, run.path("bundle"), run.path("part"), name)
    with open(run.path("part"), "rb") as bundle, open(run.path("part-lines"), "wb") as lines:
        words = [run.given.checker.path, "check"]
        ended = run.steps.run("anchors", words, limits, "notice", stdin=bundle, stdout=lines)
    os.remove(run.path("part"))
    if ended.over or ended.status:
        raise Failed(CHECK, ended.why("rpki_check check"))
    return numbers(counts_of(run.steps.call("anchors", limits, count, run.path("part-lines"))))


def numbers(counts):
    return {"origins": counts.origins, "customers": counts.customers}


# The files.


def apply_slurm(run):
    """The operator's own exceptions, which come after what is proved."""
    if not run.given.slurm:
        return
    told, texts, changed = run.call("slurm", excepted, run.path("lines"), run.path("routes"), run.given.slurm)
    run.outcome.counts, run.outcome.slurm = counts_of(told), changed
    for text in texts:
        run.log.tell(text)


def excepted(lines, made, path):
    """Writes the lines with a file's exceptions: their counts, what is told, and what the exceptions changed."""
    try:
        rules = slurm.read(path)
        with open(lines, "rb") as before, open(made, "wb") as after:
            changed = slurm.apply(before, after, rules)
    except slurm.BadSlurm as why:
        raise Failed(FAULT, str(why)) from None
    return count(made), list(changed.text()), changed.as_dict()


def look_at_guards(run):
    """What would be missing in the files; without --force that ends the run."""
    given, outcome = run.given, run.outcome
    outcome.gone = run.call("guards", guards.gone_from, given, outcome.counts, run.work)
    outcome.guards = list(guards.failing(given, outcome.proved_counts, outcome.gone, outcome.report))
    if outcome.guards and not given.force:
        raise Failed(GUARD, "; ".join(row["why"] for row in outcome.guards))


def write_files(run, evidence):
    """Writes all files, and puts them in their places behind what is kept."""
    given, outcome = run.given, run.outcome
    if given.keep:
        outcome.digests = {name: digest_of(run.path(name)) for name in ("bundle", "lines", "verdicts")}
    how = lines_to.How(given.name, given.moment, given.lifetime, not given.no_aspa, outcome.metadata())
    forms = {out.path: out.form for out in given.outs}

    def write(path, file):
        digest = run.call(forms[path], written, forms[path], outcome.counts, how, file)
        outcome.digests |= {"out": digest} if path == given.first else {f"out {path}": digest}
        for text in lines_to.unsaid(forms[path], outcome.counts, how):
            run.log.tell(text, "notice")

    outcome.status, outcome.is_new = PARTED if outcome.parted() else WELL, True
    try:
        publish(list(forms), write, run.steps.go_on, lambda: evidence.keep(outcome.as_dict(run.steps)))
    except BaseException:
        outcome.is_new = False
        raise


def written(form, counts, how, file):
    digest = lines_to.write(form, counts, how, file)
    file.flush()
    return digest
