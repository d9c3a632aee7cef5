#!/usr/bin/env python3
"""From a validator's cache to the folder that `rpki_check bundle` takes.

`rpki_check` does no signature arithmetic: a bundle says which signatures are good. This program reads what a relying
party keeps on disk (certificates, revocation lists, signed objects), checks each signature with OpenSSL (through
Python's `cryptography`), and writes the objects, the trust anchor locators and a line for each good signature.

    verdicts.py CACHE OUT --tals FOLDER [--layout NAME] [--moment YYYYMMDDHHMMSSZ] [--depth N] [--relaxed]
        [--replace] [--known FOLDER] [--jobs N] [--max-file-size OCTETS] [--max-origins-per-object N]
        [--max-store-size OCTETS] [--summary FILE] [--report FILE] [--progress]

Layouts (by default the one that the folders' names tell):

  plain        CACHE/rsync/HOST/.. and CACHE/https/HOST/.., as OUT has them
  rpki-client  CACHE/valid/HOST/.. and CACHE/HOST/.. (what was accepted), CACHE/{.rrdp,rrdp}/HASH/HOST/..,
               CACHE/{.rsync,rsync}/HOST/.., and trust anchors in CACHE/{ta,.ta}/NAME/FILE.cer, by the locators' names
  fort         CACHE/rrdp/NAME/HOST/.., CACHE/rsync/HOST/.., CACHE/https/HOST/.. (trust anchors)
  routinator   what `routinator dump` writes: CACHE/{store/rrdp,rrdp}/HOST/HASH/{rsync/,}HOST/..,
               CACHE/{store/rsync,rsync}/HOST/.., CACHE/ta/{rsync,https}/HOST/..

Where a cache has copies of one URI with other octets, none counts by its place. Of manifests the copy is taken whose certificate
is signed by the key of a certificate that names that URI, if there is one below a locator, and which stands in the store that
this certificate names; of other files the copy whose digest the manifest lists that was taken (`choosing` has it all). Where two
authorities claim one URI with copies of their own, both are told, and the one stands that the run before took (--known).

Only regular files count whose paths are URIs: links, pipes, sockets, devices, what can't be read, files over --max-file-size,
objects over --max-origins-per-object, and what is more than `rpki_check` takes (`shares`: whoever takes least is served first)
are left out and told, and nothing in CACHE ends the run or makes it read elsewhere.

A signature is checked with one key at most: that of the certificate whose key's SHA-1 digest is the identifier that was
signed with, a trust anchor's with its own, an object's content with that of the object's certificate. With --known
FOLDER, the OUT of an earlier run that is as much to be trusted as this one, a signature whose three digests stand in
FOLDER/verdicts isn't computed again. What isn't DER of one of the profiles stays an object of the bundle, without a
verdict: `rpki_check` refuses it by its own rules. With --relaxed signed objects may be in BER, and OUT says so: it
makes a bundle of version 1.

OUT is written beside its place and put there whole; with --replace it may be there already. A run that ends before
leaves it as it was.

Nothing here is proved. A line that is missing takes announcements away; a line that is wrong lets whoever made the
signature speak for the key's holder: `rpki_check` says only what follows from these lines.

Exit status: 0 where OUT was written; 1 where something couldn't be read or written, or the cache has no object; 2 for
other arguments; 7 where there is no locator; 8 where memory lacked; 9 where the disk is full; 10 where Python lacks
`cryptography`.
"""

import argparse
import base64
import binascii
import collections
import datetime
import heapq
import os
import re
import resource
import signal
import stat
import sys
import time

sys.dont_write_bytecode = True

import faults  # noqa: E402

try:
    import caches  # noqa: E402
    import relaxed  # noqa: E402
    import reports  # noqa: E402
    import signed  # noqa: E402
    import summaries  # noqa: E402
    from earlier import Known, known_rows  # noqa: E402
    from gathering import Gathering  # noqa: E402
    from helpers import IDENTIFIER, Counts, Helpers  # noqa: E402
    from outputs import ENDING, Output, write  # noqa: E402
    from taking import Listing, Taking, path_of  # noqa: E402
except ImportError as lacking:
    print(f"verdicts.py: {sys.executable} lacks `cryptography` ({lacking}): install it for this Python, such as by "
          "`apt install python3-cryptography` or `python3 -m pip install cryptography`", file=sys.stderr)
    sys.exit(faults.NO_LIBRARY)

# As rpki-client has it.
MOST_FILE_OCTETS = 4_000_000
MOST_ORIGINS = 100_000
MOST_STORE_OCTETS = 512 << 20
MOST_LOCATOR_OCTETS = 1 << 16
# A locator's name is a PrintableString without a space.
LOCATOR_NAME = re.compile(r"[A-Za-z0-9'()+,.:=?-]+\Z")
URI = re.compile(r"(?i)(rsync|https)://")
PROGRESS_SECONDS = 2.0

# How large things may be: the octets of a file, the rows of an object, and the octets of what one authority publishes.
Limits = collections.namedtuple("Limits", "file origins store")
# A locator: its name, its octets, its URIs in their order, and the octets of its key, or None where it has none.
Locator = collections.namedtuple("Locator", "name text uris key")


class Stopped(BaseException):
    """A signal that ends the run."""


class Progress:
    """A line on standard error now and then, where that is a terminal or --progress is given."""

    def __init__(self, shown):
        self.shown, self.last = shown, time.monotonic()

    def tell(self, what, count):
        if self.shown and time.monotonic() - self.last >= PROGRESS_SECONDS:
            self.last = time.monotonic()
            print(f"{what}: {count:,}", file=sys.stderr, flush=True)


def read_locator(path):
    """The octets of a locator's file, which the operator chose: so links are followed."""
    with open(os.open(path, os.O_RDONLY | os.O_NONBLOCK | os.O_CLOEXEC), "rb") as file:
        if not stat.S_ISREG(os.fstat(file.fileno()).st_mode):
            raise OSError(f"{path} is no file")
        text = file.read(MOST_LOCATOR_OCTETS + 1)
    if len(text) > MOST_LOCATOR_OCTETS:
        raise OSError(f"{path} is too large for a locator")
    return text


def read_tals(folder):
    """The locators of a folder."""
    found = []
    for entry in sorted(os.listdir(folder)):
        if not entry.endswith(".tal"):
            continue
        name = entry.removesuffix(".tal")
        if not LOCATOR_NAME.match(name):
            raise OSError(f"a locator's name has letters, digits and '()+,.:=?- alone: {os.path.join(folder, entry)!a}")
        text = read_locator(os.path.join(folder, entry))
        lines = text.decode("latin-1").replace("\r\n", "\n").split("\n")
        found.append(Locator(name, text, [line for line in lines if URI.match(line)], key_of(lines)))
    if not found:
        raise faults.Fault(faults.NO_LOCATOR, f"{folder} has no locator (NAME.tal)")
    return found


def key_of(lines):
    """The octets of a locator's key (RFC 8630 2.2), or None."""
    try:
        digits = "".join(line.strip() for line in lines if not URI.match(line) and not line.startswith("#"))
        return base64.b64decode(digits, validate=True)
    except (binascii.Error, ValueError):
        return None


def anchor_of(folder, locator):
    """The first URI of a locator at which a certificate of its key was taken, or None."""
    for uri in locator.uris:
        path = path_of(uri)
        try:
            with open(os.path.join(folder, path), "rb") as file:
                octets = file.read()
            cert = signed.read_cert(octets, 0, len(octets))
            if cert.bits is not None and signed.encoded_key(cert.bits) == locator.key:
                return uri
        except (OSError, TypeError, signed.Malformed):
            continue
    return None


def write_index(path, keys):
    """Writes the sorted rows of keys, one for each identifier."""
    last = None
    with open(path, "xb") as file:
        for row in sorted(keys):
            if row[:IDENTIFIER] != last:
                file.write(row)
            last = row[:IDENTIFIER]


def merge_lines(target, paths):
    """Writes the lines of sorted files in order, each once: how many."""
    count, last = 0, None
    with open(target, "xb", buffering=1 << 18) as out:
        files = [open(path, "rb", buffering=1 << 18) for path in paths]
        for line in heapq.merge(*files):
            if line != last:
                out.write(line)
                count, last = count + 1, line
        for file in files:
            file.close()
    return count


def write_rest(output, given, tals):
    """Writes what OUT has besides objects and verdicts."""
    write(os.path.join(output.folder, "moment"), (given.moment + "\n").encode())
    write(os.path.join(output.folder, "depth"), f"{given.depth}\n".encode())
    if given.relaxed:
        write(os.path.join(output.folder, "relaxed"), b"true\n")
    os.mkdir(os.path.join(output.folder, "tals"))
    for name, text, *_ in tals:
        write(os.path.join(output.folder, "tals", name + ".tal"), text)


class Clock:
    """Seconds by step."""

    def __init__(self):
        self.last, self.seconds = time.monotonic(), {}

    def note(self, step):
        now = time.monotonic()
        self.seconds[step], self.last = round(now - self.last, 3), now


def processor_seconds():
    """What this process and its helpers took, the kernel's time included."""
    used = (resource.getrusage(who) for who in (resource.RUSAGE_SELF, resource.RUSAGE_CHILDREN))
    return round(sum(one.ru_utime + one.ru_stime for one in used), 3)


class Run:
    """One run: what it finds, as far as it comes."""

    def __init__(self, given):
        self.given, self.clock, self.notes = given, Clock(), []
        self.tals, self.anchors, self.contested = [], {}, []
        self.layout = self.taking = self.counts = None
        self.verdicts = 0

    def all(self):
        """Makes OUT and puts it in place."""
        given = self.given
        self.tals = read_tals(given.tals)
        top = os.open(given.cache, os.O_RDONLY | os.O_DIRECTORY | os.O_CLOEXEC)
        with Output(given.out, given.replace) as output:
            self.make(output, top)
            self.anchors = {locator.name: anchor_of(output.folder, locator) for locator in self.tals}
            output.put()
            self.report = reports.report(self, given.report)
        told = self.summary()
        print(summaries.text(told), end="", file=sys.stderr)
        if given.summary:
            summaries.write_json(given.summary, told)

    def make(self, output, top):
        """Writes the folder."""
        given, progress = self.given, Progress(self.given.progress or sys.stderr.isatty())
        self.layout = given.layout or caches.layout_of(top)
        self.counts = Counts(os.path.join(output.work, "left"))
        tell, limits = self.counts.left_out.add, Limits(given.max_file_size, given.max_origins_per_object, given.max_store_size)
        rows = known_rows(given.known, self.notes)
        known = Known(given.known, relaxed.read if given.relaxed else signed.read)
        walk = caches.Walk(top, tell, limits.file, output.skipped())
        listing = Listing(tell, len(self.tals))
        self.taking = Taking(listing, output.folder, progress.tell)
        with Helpers(given.jobs, top, output.work, output.folder, limits, rows, given.relaxed) as helpers:
            gathering = Gathering(given, walk, self.layout, self.tals, helpers, self.taking, known)
            keys = gathering.all()
            self.contested = gathering.contested
            if not self.taking.count:
                raise OSError("the cache has no object")
            helpers.each("flush")
            self.clock.note("read")
            index = os.path.join(output.work, "index")
            write_index(index, keys)
            helpers.each("check", index)
            self.clock.note("check")
            finished = helpers.each("finish")
        self.counts.left_out.close()
        for _, other in finished:
            self.counts.merge(other)
        self.verdicts = merge_lines(os.path.join(output.folder, "verdicts"), [path for path, _ in finished])
        write_rest(output, given, self.tals)
        self.clock.note("write")

    def summary(self):
        """What was read, found and left out."""
        counts = self.counts
        signatures = {name: counts.signatures[name] for name in ("found", "known", "computed", "bad", "no_key")}
        return {
            "layout": self.layout,
            "moment": self.given.moment,
            "objects": self.taking.count,
            "octets": self.taking.octets,
            "locators": len(self.tals),
            "missing_anchors": [name for name, uri in self.anchors.items() if uri is None],
            "verdicts": self.verdicts,
            "good": dict(sorted(counts.good.items())),
            "signatures": {**signatures, "good": sum(counts.good.values())},
            "left_out": counts.left_out.by_reason(),
            "not_good": counts.not_good.rows(),
            "differing": counts.differing,
            "contested": self.contested,
            "notes": [*self.notes, *map(reports.words, self.contested)],
            "jobs": self.given.jobs,
            "seconds": self.clock.seconds,
            "processor_seconds": processor_seconds(),
        }


def arguments():
    parser = argparse.ArgumentParser(description=__doc__, formatter_class=argparse.RawDescriptionHelpFormatter)
    parser.add_argument("cache", metavar="CACHE", help="the validator's cache")
    parser.add_argument("out", metavar="OUT", help="the folder to write")
    parser.add_argument("--tals", required=True, metavar="FOLDER", help="the folder of the locators, NAME.tal")
    parser.add_argument("--layout", choices=caches.LAYOUTS)
    parser.add_argument("--moment", metavar="YYYYMMDDHHMMSSZ", help="the moment to validate at (default: now)")
    parser.add_argument("--depth", type=int, default=32, help="the most certificates of a chain (default: 32)")
    parser.add_argument("--relaxed", action="store_true", help="signed objects may be in BER: a bundle of version 1")
    parser.add_argument("--replace", action="store_true", help="replace what an earlier run wrote to OUT")
    parser.add_argument("--known", metavar="FOLDER", help="what an earlier run wrote, whose verdicts are taken")
    parser.add_argument("--jobs", type=int, default=len(os.sched_getaffinity(0)), help="processes (default: processors)")
    for name, default, what, text in (
        ("file-size", MOST_FILE_OCTETS, "OCTETS", "of a file (default: 4,000,000)"),
        ("origins-per-object", MOST_ORIGINS, "N", "prefixes of a ROA, providers of an ASPA (default: 100,000)"),
        ("store-size", MOST_STORE_OCTETS, "OCTETS", "of all that one authority publishes (default: 512 MiB)"),
    ):
        parser.add_argument(f"--max-{name}", type=int, default=default, metavar=what, help=text)
    parser.add_argument("--summary", metavar="FILE", help="write the summary there too, as JSON")
    parser.add_argument("--report", metavar="FILE", help="write there, as JSON, what was found and left out, and by whom")
    parser.add_argument("--progress", action="store_true", help="tell how far it is, on standard error")
    given = parser.parse_args()
    given.moment = given.moment or datetime.datetime.now(datetime.timezone.utc).strftime("%Y%m%d%H%M%SZ")
    check(parser, given)
    return given


def check(parser, given):
    """Refuses arguments that are none."""
    try:
        if not re.fullmatch(r"[0-9]{14}Z", given.moment):
            raise ValueError
        datetime.datetime.strptime(given.moment, "%Y%m%d%H%M%SZ")
    except ValueError:
        parser.error("--moment isn't YYYYMMDDHHMMSSZ of a real date")
    if not 1 <= given.depth <= 32:
        parser.error("--depth isn't from 1 to 32")
    if not 1 <= given.jobs <= 1024:
        parser.error("--jobs isn't from 1 to 1,024")
    for name in ("max_file_size", "max_origins_per_object", "max_store_size"):
        if getattr(given, name) < 1:
            parser.error(f"--{name.replace('_', '-')} isn't at least 1")
    files = (os.path.dirname(os.path.abspath(file or ".")) for file in (given.summary, given.report))
    for folder in (given.cache, given.tals, *files):
        if not os.path.isdir(folder):
            parser.error(f"{folder} is no folder")


def stop(number, _):
    for one in ENDING:
        signal.signal(one, signal.SIG_IGN)
    raise Stopped(number)


def run(given):
    """The exit status of a run, after its report."""
    one, status = Run(given), faults.GOOD
    try:
        one.all()
        report = one.report
    except Exception as why:
        fault = faults.told(why)
        status = fault.status
        print(f"verdicts.py: {fault.why}", file=sys.stderr)
        report = reports.report(one)
    if given.report:
        try:
            summaries.write_json(given.report, report)
        except OSError as why:
            print(f"verdicts.py: {why}", file=sys.stderr)
            status = status or faults.told(why).status
    return status


def main():
    given = arguments()
    for number in ENDING:
        signal.signal(number, stop)
    try:
        return run(given)
    except Stopped as number:
        signal.signal(number.args[0], signal.SIG_DFL)
        os.kill(os.getpid(), number.args[0])
    return faults.FAULT


if __name__ == "__main__":
    sys.exit(main())
