#!/usr/bin/env python3
"""From a validator's cache to what routers' software takes, in one command.

    validate.py CACHE --tals FOLDER --out [FORM=]FILE.. [--form json|openbgpd|csv] [--lifetime SECONDS] [--name NAME] [--no-aspa]
        [--slurm FILE] [--keep FOLDER] [--known FOLDER] [--work FOLDER] [--checker PATH] [--asker PATH]
        [--time-limit SECONDS] [--step-limit SECONDS] [--memory-limit MIB] [--quarantine N]
        [--allow-missing-anchor NAME].. [--min-origins N] [--max-drop PERCENT] [--force]
        [--status FILE] [--metrics FILE] [--log plain|systemd] [--progress]
        [--moment YYYYMMDDHHMMSSZ] [--layout NAME] [--depth N] [--jobs N] [--max-file-size OCTETS]
        [--max-origins-per-object N] [--max-store-size OCTETS] [--relaxed]
    validate.py --version

Steps, one after another:

  verdicts  tools/verdicts.py reads CACHE and checks its signatures, at the moment that the run begins or at --moment
  bundle    `rpki_check bundle` makes one bundle of what it wrote
  check     `rpki_check check` prints the bundle's lines
  slurm     where --slurm is given: tools/slurm.py applies these exceptions (RFC 8416) to the lines
  guards    what would be missing in FILE
  FORM      tools/lines_to.py turns the lines into FILE, which is to be used for --lifetime (a day unless it is given)

The programs are crates/NAME/out/NAME, where these were proved and built, or else bin/NAME, which tools/build.py makes; the
summary and the JSON's `metadata` say which (`proved`). --out may be given more than once, as json=FILE, openbgpd=FILE or
csv=FILE; without a form it is that of --form. Each FILE is replaced in one rename, once everything else went well and its
octets are on the disk, and keeps its permissions and, where that may be, its owner. So whoever reads it finds the old file
or the new one, never a part; where a step fails, or the run is ended at any point before, FILE is as it was.

Each step has a limit of time and one of memory. Where `check` hasn't ended after --time-limit (120 seconds; 0 for none), or
memory didn't suffice for it, `rpki_ask cost` says below which authorities the most chains of certificates go on. What the
one publishes that makes them so many is left out of the bundle (`quarantine.py`), and `check` is tried again, so often as
--quarantine says (3 times). Nothing outside what that authority can reach changes by it, which `rpki_ask reach` tells for
the summary. FILE is new then, with all others' lines, and the exit status is 3; standard error, the summary and the JSON's
`metadata` say who was left out. They do so of an authority that lost a publication point to another that claims it, too.

FILE isn't replaced where it would lack what it should have: no locator was read; a locator leads to no trust anchor, unless
it is that of an --allow-missing-anchor; there are fewer origins than --min-origins (1), those of --slurm apart; or more than
--max-drop per cent (20; 0 for none) of the origins of the FILE that stands are gone. Then the status is 7, and the summary
says what is missing. --force writes FILE all the same.

Where something is refused, `rpki_ask --json refusals` tells the reasons, which the summary counts; and where there are
several locators, `check` says what each of them alone gives. Both have --time-limit at most, and no more than 10 seconds and
four times what `check` took; where that doesn't suffice, the summary says that it isn't known, and all else is as it would
be.

All else is written below the folder `.NAME.work` beside FILE (NAME is FILE's; --work says where else), which takes up to
three times the space of the objects in CACHE. It is removed at the end, and a killed run's by the next one. It is locked,
so that there is one run at a time for a FILE.

--keep FOLDER keeps what the lines rest on: `bundle`, `lines`, `verdicts` and `summary.json`, put in place together before
FILE is. It has to be in the file system of the work folder, and hold nothing else. The JSON's `metadata` then has the
bundle's SHA-256 digest. What a run of another status than 0 had, its bundle, what it printed and its summary, is kept in
FOLDER.status-N beside it; where that run's FILE is new (3), FOLDER.status-0 keeps what went well last. --known FOLDER takes
the verdicts of an earlier run, as verdicts.py does; it may be what --keep keeps.

Each run leaves its status as JSON, at FILE.status.json or where --status says, and with --metrics in Prometheus' text
format. Where the summary says '..', the file FILE.status.lists beside it has all names.

Exit status:

  0   FILE is new
  1   a file or folder that the operator gave can't be read or written, or a program doesn't start
  2   other arguments
  3   FILE is new, without what some authority publishes, which kept `rpki_check check` from ending or is another's
  4   `rpki_check bundle` failed
  5   `rpki_check check` failed or didn't end in time, or what it printed aren't its lines
  6   verdicts.py failed
  7   FILE would lack what it should have
  8   memory didn't suffice, or a step went past --memory-limit
  9   the disk is full
  75  another run for FILE is under way

With all but 0 and 3 FILE is as it was. SIGTERM, SIGINT and SIGHUP end the step that runs; the work folder is removed, and the
process ends by that signal. Standard error has the steps' own words, how far they are, and a summary, each line with who
says it and a level.
"""

import contextlib
import itertools
import json
import os
import signal
import sys

sys.dont_write_bytecode = True

import course  # noqa: E402
import given as arguments  # noqa: E402
import metrics  # noqa: E402
import outcome  # noqa: E402
import slurm  # noqa: E402
from log import Log  # noqa: E402
from places import Busy, Evidence, Work, remove, write_at_once  # noqa: E402
from statuses import BUSY, FAULT, NEW, WELL, Failed, Stopped, failure_of  # noqa: E402
from steps import ENDING, Steps  # noqa: E402


def check(given):
    """Refuses what can't end well before anything is done."""
    if not given.checker.is_there():
        raise Failed(FAULT, f"{given.checker.path} is no program; README says how to build it")
    for out in given.outs:
        if os.path.isdir(out.path):
            raise Failed(FAULT, f"{out.path} is a folder")
    if given.slurm:
        try:
            slurm.read(given.slurm)
        except slurm.BadSlurm as why:
            raise Failed(FAULT, str(why)) from None


def work_folders(given):
    """The folder of the first file, in which the run works, and those of the others, which lock these."""
    found = [os.path.join(given.work or os.path.dirname(out.path), f".{os.path.basename(out.path)}.work") for out in given.outs]
    return list(dict.fromkeys(found))


class Run:
    """One run: its steps, how it ends, and what it leaves for those who look after it."""

    def __init__(self, given, log):
        self.given, self.log, self.steps, self.evidence = given, log, None, None
        self.told = outcome.Outcome(given, outcome.read_earlier(given.status))

    def status(self):
        """The exit status, or the signal that has ended the run as a negative number."""
        with contextlib.ExitStack() as stack:
            try:
                self.follow(stack)
            except Stopped:
                return self.stopped()
            except Busy:
                self.fail(Failed(BUSY, "another run is under way"))
            except Exception as fault:
                self.fail(failure_of(fault))
            self.leave()
        return self.told.status

    def follow(self, stack):
        """All steps, below folders that this run has alone."""
        given = self.given
        check(given)
        work, *_ = [stack.enter_context(Work(folder)) for folder in work_folders(given)]
        self.steps = Steps(work, self.log)
        evidence = Evidence(given.keep, work)
        work.clear()
        self.log.keep_in(work.path("log"))
        self.evidence = evidence
        course.follow(course.Run(given, work, self.steps, self.log, self.told), evidence)

    def fail(self, failed):
        self.told.status, self.told.why = failed.status, str(failed)

    def stopped(self):
        self.told.status, self.told.why = 128 + self.steps.signal, f"ended by signal {self.steps.signal}"
        self.log.tell(f"{self.told.why}; {self.given.first} is as it was", "warning")
        self.leave_status()
        return -self.steps.signal

    def leave(self):
        """Tells the summary, keeps the evidence, and writes the files of status: none of it changes how the run ends."""
        self.guarded("the lists", self.leave_lists)
        self.guarded("the summary", self.tell_summary)
        self.tell_end()
        self.guarded("the evidence", self.leave_evidence)
        self.leave_status()

    def tell_summary(self):
        for level, text in outcome.text(self.told, self.steps):
            self.log.tell(text, level)

    def tell_end(self):
        told, names = self.told, ", ".join(out.path for out in self.given.outs)
        verb = "are" if len(self.given.outs) > 1 else "is"
        if told.status in NEW:
            without = ", without what was left out" if told.status != WELL else ""
            forced = ", by --force" if told.guards else ""
            return self.log.tell(f"{names} {verb} new{without}{forced}", "warning" if without or forced else "info")
        before = "they were" if verb == "are" else "it was"
        return self.log.tell(f"status {told.status}: {told.why}; {names} {verb} as {before}", "error")

    def leave_lists(self):
        if self.evidence is None:
            return
        pieces = outcome.lists(self.told, self.evidence.work)
        path = f"{self.given.status.removesuffix('.json')}.lists"
        first = next(pieces, None)
        if first is None:
            return remove(path)
        write_at_once(path, itertools.chain([first], pieces))
        self.told.lists = path

    def leave_evidence(self):
        if self.evidence is None:
            return
        if self.told.status == WELL:
            self.evidence.forget_well()
        else:
            self.evidence.keep_apart(self.told.as_dict(self.steps), self.told.status in NEW)

    def leave_status(self):
        given, told = self.given, lambda: self.told.as_dict(self.steps)
        self.guarded("the status", lambda: write_at_once(given.status, [json.dumps(told(), indent=2), "\n"]))
        if given.metrics:
            self.guarded("the metrics", lambda: write_at_once(os.path.abspath(given.metrics), [metrics.text(told())]))

    def guarded(self, what, deed):
        """Does what the files don't depend on; where it fails, that is told."""
        try:
            deed()
        except Exception as fault:
            self.log.tell(f"{what} can't be written: {failure_of(fault)}", "warning")


def main():
    for number in ENDING:
        # (so that a signal that comes before the first step ends it without words)
        signal.signal(number, signal.SIG_DFL)
    given = arguments.arguments(__doc__)
    log = Log(given.log)
    status = Run(given, log).status()
    log.close()
    if status < 0:
        signal.signal(-status, signal.SIG_DFL)
        os.kill(os.getpid(), -status)
    return status


if __name__ == "__main__":
    sys.exit(main())
