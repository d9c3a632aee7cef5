#!/usr/bin/env python3
"""Asks tools/verdicts.py about caches that are too large, what its reports say, and with which status it fails.

    limits.py [PROGRAM]

Beside honest authorities stands one that publishes much, on the same host: its files are left out, and named, and all others' come.
With PROGRAM, a built `rpki_check`, their lines are compared, too. What is compared comes from what was made. Exits with 1 at the
first answer that differs.
"""

import errno
import ipaddress
import json
import os
import shutil
import subprocess
import sys
import tempfile

from copies import A0, REPOSITORY, World, attested, of
from odd_caches import PREPARED, TOOLS, Room, lay, reasons, repository, same, tree

sys.dont_write_bytecode = True

FOLDER = REPOSITORY + "AAA/"
OVER = "more than rpki_check takes: it is beyond its authority's share"
STORE = "more than --max-store-size by one authority"
UNLISTED = "more than rpki_check takes: no manifest lists it"
LARGE = "a file over the limit of --max-file-size"
MANY = "more prefixes or providers than --max-origins-per-object"


def told(room, cache, *words, **how):
    """The summary and the report of a run that ends well."""
    summary = room.told(cache, "--report", room.path("report"), *words, **how)
    with open(room.path("report")) as file:
        return summary, json.load(file)


def left(report, why):
    """Of a reason the files, the authority, and whether all paths are in the list that is named."""
    rows = [row for row in report["left_out"] if row["why"] == why]
    return [(row["files"], row["authority"]) for row in rows]


def is_honest(room, what, world, program):
    """Whether all that is honest was taken, and with it its lines come."""
    found = tree(room.out)
    wanted = {uri.replace("://", "/", 1): octets for uri, octets in world.honest.items() if "/ta/" not in uri}
    same(f"{what}: honest objects", {path: found.get(path) for path in wanted} == wanted, True)
    if program:
        same(f"{what}: lines", attested(program, room.out), world.lines)


def heavy(world, count, size):
    """An authority that publishes so many files of so many octets, before all others by name."""
    one = world.other(FOLDER + "aaa.mft")
    for number in range(count):
        one.files[f"f{number:03}.gbr"] = number.to_bytes(4, "big") * (size // 4)
    del one.files["o0.roa"]
    return one


def shares(room, world, program):
    """One that publishes more than there is room for, or more than an authority may; files that nobody lists; and a crowd of its own
    below it."""
    for what, code, words, why in (
        ("octets", "import taking\ntaking.MOST_OCTETS = 400_000", (), OVER),
        ("entries", "import taking\ntaking.MOST_ENTRIES = 80", (), OVER),
        ("a store", "", ("--max-store-size", "100000"), STORE),
    ):
        one = heavy(world, 80, 8_000)
        objects = {**of(one, world.pool[0]), **world.all()}
        cache = room.path("shares")
        lay(cache, objects)
        summary, report = told(room, cache, *words, code=code)
        # (its files, its list and its manifest)
        same(f"{what}: left out", left(report, why), [(82, one.at)])
        same(f"{what}: the summary", reasons(summary), {why: 82})
        row = report["left_out"][0]
        with open(os.path.join(room.folder, row["all"])) as file:
            paths = file.read().splitlines()
        same(f"{what}: listed", sorted(paths), sorted(uri.replace("://", "/") for uri in objects if uri.startswith(FOLDER)))
        same(f"{what}: the first ones", row["first"], sorted(paths)[:10])
        same(f"{what}: octets", row["octets"], sum(len(octets) for uri, octets in objects.items() if uri.startswith(FOLDER)))
        is_honest(room, what, world, program)
        shutil.rmtree(cache)
    below(room, world, program)
    unlisted(room, world, program)


def below(room, world, program):
    """Certificates below the one that publishes much don't get it more room, and it takes others' files not with it that it lists."""
    top, objects = world.other(FOLDER + "aaa.mft"), {}
    del top.files["o0.roa"]
    for number in range(12):
        one = repository.Authority(f"s{number}", repository.Key([]), repository.Held(inherits=True), top)
        one.folder, one.at = f"{FOLDER}{number}/", f"{top.folder}s{number}.cer"
        top.files[f"s{number}.cer"] = one.own_cert()
        for at in range(10):
            one.files[f"f{at}.gbr"] = bytes([number, at]) * 4_000
        objects |= one.publish(world.pool[0])
    # (in the folder of an honest authority, whose files it lists)
    thief = world.other(A0 + "zzz.mft", file="thief.cer")
    thief.files = {uri.rpartition("/")[2]: octets for uri, octets in world.honest.items() if uri.startswith(A0)}
    thief.files["large.gbr"] = bytes(300_000)
    objects |= of(thief, world.pool[0])
    objects |= of(top, world.pool[0])
    objects |= world.all()
    cache = room.path("shares")
    lay(cache, objects)
    _, report = told(room, cache, code="import taking\ntaking.MOST_OCTETS = 500_000")
    authorities = {row["authority"] for row in report["left_out"]}
    same("a crowd below one: who is left out", (thief.at in authorities, authorities - {thief.at} != set()), (True, True))
    same("a crowd below one: nobody honest", [name for name in authorities if name in (REPOSITORY + f"ta/a{n}.cer" for n in range(9))], [])
    is_honest(room, "a crowd below one", world, program)
    shutil.rmtree(cache)


def unlisted(room, world, program):
    """What nobody lists goes first."""
    cache = room.path("shares")
    lay(cache, {**world.honest, **{f"{REPOSITORY}AAA/{number}.roa": bytes(9_000) for number in range(60)}})
    _, report = told(room, cache, code="import taking\ntaking.MOST_OCTETS = 400_000")
    files, authority = left(report, UNLISTED)[0]
    same("unlisted files", (0 < files <= 60, authority, len(report["left_out"])), (True, None, 1))
    is_honest(room, "unlisted files", world, program)
    shutil.rmtree(cache)


def hidden(room, world, program):
    """A host of which more entries stand there than are looked at: what manifests list is found, whatever stands before it."""
    cache = room.path("hidden")
    lay(cache, {**world.honest, **{f"{REPOSITORY}{folder}/{number}.roa": b"x" for folder in ("AAA", "a0", "ta") for number in range(40)}})
    for most in (1, 5, 41, 100):
        _, report = told(room, cache, code=f"import caches\ncaches.MOST_SEEN = {most}")
        same(f"{most} entries: told", bool(left(report, "beyond 1,000,000 entries of a host")), True)
        is_honest(room, f"{most} entries", world, program)
    shutil.rmtree(cache)


def prefixes(world, count):
    """An authority with a ROA of so many prefixes, and an ASPA of as many providers."""
    one = world.other(FOLDER + "aaa.mft")
    networks = [ipaddress.ip_network((10 << 24 | 255 << 16 | number, 32)) for number in range(count)]
    rows = repository.sequence(*(repository.sequence(repository.address_bits(network)) for network in networks))
    content = repository.sequence(repository.integer(64496), repository.sequence(repository.sequence(repository.FAMILIES[4], rows)))
    held = repository.Held(inherits=True)
    one.files = {"large.roa": one.sign_object("1.2.840.113549.1.9.16.1.24", content, "large.roa", world.pool[0], held)}
    one.add_customer("large.asa", world.pool[0], 100_000, range(1, count + 1))
    return one


def origins(room, world, program):
    """Objects with more prefixes or providers than there may be, and as many as there may be."""
    cache = room.path("origins")
    for most, wanted in ((1_999, [(2, None)]), (2_000, [])):
        lay(cache, {**of(prefixes(world, 2_000), world.pool[0]), **world.all()})
        _, report = told(room, cache, "--max-origins-per-object", str(most))
        same(f"2,000 rows, {most:,} at most", left(report, MANY), wanted)
        if wanted:
            is_honest(room, "2,000 rows", world, program)
        shutil.rmtree(cache)
    lay(cache, world.honest)
    lay(cache, {FOLDER + "large.roa": bytes(4_000_001), FOLDER + "least.roa": bytes(4_000_000)})
    summary, report = told(room, cache)
    same("4,000,001 octets", (left(report, LARGE), summary["objects"]), ([(1, None)], len(world.honest) + 1))
    same("4,000,001 octets: told", report["left_out"][0]["octets"], 4_000_001)
    shutil.rmtree(cache)


def reported(room, world):
    """A report's other words."""
    cache, at = room.path("told"), REPOSITORY + "ta.cer"
    lay(cache, world.honest)
    for path in (os.path.join(folder, name) for folder, _, names in os.walk(cache) for name in names):
        os.utime(path, (1_700_000_000, 1_700_000_000))
    os.utime(os.path.join(cache, at.replace("://", "/")), (1_700_000_001, 1_700_000_001))
    _, report = told(room, cache)
    octets = sum(map(len, world.honest.values()))
    same("a report: files", [report[key] for key in ("files", "octets", "newest_file")], [len(world.honest), octets, 1_700_000_001])
    same("a report: locators", report["locators"], [{"name": "example", "uris": [at], "anchor": at}])
    found = report["signatures"]
    same("a report: signatures", (found["bad"], found["known"], found["good"] == found["computed"] > 0), (0, 0, True))
    same("a report: nothing else", (report["contested"], report["left_out"], len(report)), ([], [], 7))
    # (another certificate at the locator's URI is no anchor of it)
    lay(cache, {at: world.honest[REPOSITORY + "ta/a0.cer"]})
    summary, report = told(room, cache)
    same("an anchor of another key", (report["locators"][0]["anchor"], summary["missing_anchors"]), (None, ["example"]))
    shutil.rmtree(cache)


# What fails, put in front of a run: its status, and a part of what is said.
FAILING = (
    ("no memory in the run", "import gathering\ndef fail(*_): raise MemoryError\ngathering.Gathering.list_all = fail", 8, "out of memory"),
    ("no memory in a helper", "import helpers\ndef fail(*_): raise MemoryError\nhelpers.Helper.note = fail", 8, "out of memory"),
    ("a helper that is killed", "import helpers, os\ndef fail(*_): os.kill(os.getpid(), 9)\nhelpers.Helper.note = fail", 8, "was killed"),
    ("a full disk", f"import helpers\ndef fail(*_): raise OSError({errno.ENOSPC}, 'No space left')\nhelpers.write_in = fail", 9, "disk is full"),
    ("a full quota", f"import gathering\ndef fail(*_): raise OSError({errno.EDQUOT}, 'Quota')\ngathering.Gathering.take = fail", 9, "disk is full"),
    ("a fault of its own", "import points\ndef fail(*_): raise KeyError('x')\npoints.count_of = fail", 1, "a fault of this program: KeyError"),
    ("no library", "import sys\nsys.modules['cryptography.exceptions'] = None", 10, "install"),
)


def failing(room, world):
    """Whatever fails is told in one line, and OUT is as it was."""
    cache = room.path("failing")
    lay(cache, world.honest)
    room.told(cache)
    wanted = tree(room.out)
    for what, code, status, words in FAILING:
        report = room.path("report")
        if os.path.exists(report):
            os.remove(report)
        done, _ = room.run(cache, "--replace", "--report", report, code=code)
        lines = done.stderr.splitlines()
        same(f"{what}: the status", (done.returncode, words in done.stderr, len(lines)), (status, True, 1))
        same(f"{what}: OUT", tree(room.out) == wanted, True)
        same(f"{what}: a report", os.path.exists(report), status != 10)
    empty = room.path("empty")
    os.mkdir(empty)
    words = [sys.executable, "-B", os.path.join(TOOLS, "verdicts.py"), cache, room.out, "--tals", empty, "--replace"]
    done = subprocess.run([*words, "--report", room.path("report")], capture_output=True, text=True)
    same("no locator", (done.returncode, "has no locator" in done.stderr, tree(room.out) == wanted), (7, True, True))
    with open(room.path("report")) as file:
        same("no locator: a report", json.load(file)["locators"], [])
    full_disk(room, cache)


def full_disk(room, cache):
    """A limit of files' sizes in the place of a disk that is full: a write that fails ends the run."""
    code = PREPARED.format(tools=TOOLS, code="import resource, signal\nsignal.signal(signal.SIGXFSZ, signal.SIG_IGN)\n"
                           "resource.setrlimit(resource.RLIMIT_FSIZE, (1_000, 1_000))")
    done = subprocess.run([sys.executable, "-B", "-c", code, *room.words(cache, "--replace")], capture_output=True, text=True)
    same("a write that fails", (done.returncode, len(done.stderr.splitlines())), (1, 1))


def main():
    program = (sys.argv[1:] or [None])[0]
    world = World()
    with tempfile.TemporaryDirectory() as folder:
        room = Room(folder, world.made)
        failing(room, world)
        reported(room, world)
        origins(room, world, program)
        shares(room, world, program)
        hidden(room, world, program)


if __name__ == "__main__":
    main()
