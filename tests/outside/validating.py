#!/usr/bin/env python3
"""Asks tools/validate.py what becomes of its file where steps fail and runs are ended.

    validating.py [PROGRAM]

A stand-in for `rpki_check` fails, hangs or prints other things at each step; runs are ended by signals in each, and killed
before and after each wait for the disk and each rename. The file has to stand as it was until it is new as a whole, and
nothing may be left beside it after the next run. Where the stand-in hangs, or lacks memory, as long as its bundle has what
some authorities publish, these are left out, by what a stand-in for `rpki_ask` counts below each authority; the bundle's
lines are then everybody else's, by a second reading of the rules. With PROGRAM, a built `rpki_check`, the example cache
becomes what `examples/cache.json` has. Exits with 1 at the first answer that differs.
"""

import contextlib
import fcntl
import json
import os
import signal
import stat
import subprocess
import sys
import tempfile
import time

sys.dont_write_bytecode = True
HERE = os.path.dirname(os.path.abspath(__file__))
sys.path.insert(0, os.path.join(HERE, os.pardir, "lib"))

import rpki_model  # noqa: E402
from outcomes import SLOWER  # noqa: E402
from rpki_lattices import counted, crowded  # noqa: E402

TOP = os.path.join(HERE, os.pardir, os.pardir)
TOOLS = os.path.join(TOP, "tools")
EXAMPLES = os.path.join(TOP, "examples")
SECONDS = 300
OLD = "what was there before\n"
# So long a stand-in that hangs is waited for; all others have to start and end meanwhile.
TIME_LIMIT = str(5 * SLOWER)
LINES = "roa AS64496 192.0.2.0/24 24\naspa AS64496 AS64497\nrefused rsync://rpki.example/p point\n"
LINES += "refused rsync://rpki.example/x object\n"
# Of these refusals the reasons: the object's on two chains.
OBJECT = '"name":"rsync://rpki.example/x","cause":"object","reason":"object-unreadable","locator":"example"'
REASONS = '{"refused":[{"name":"rsync://rpki.example/p","cause":"point","reason":"manifest-next-update","locator":"example","chain":[]},'
REASONS += f'{{{OBJECT},"chain":["rsync://rpki.example/a"]}},{{{OBJECT},"chain":["rsync://rpki.example/b"]}}]}}\n'
# What stands in the place of both programs: the word in FAKE is a step and what it does there. With BUNDLE, a file, that is the
# bundle; then `check` hangs, or lacks memory, while an object stands at one of the URIs in AT, and `cost` prints what COST has. With
# ECHO `check` prints its bundle; with BY, a table, the lines of each locator's name that its bundle has.
STAND_IN = f"""#!{sys.executable}
import os, sys, time
step, _, deed = os.environ.get("FAKE", "").partition(" ")
json, bundle = sys.argv[1] == "--json", os.environ.get("BUNDLE")
asked = sys.argv[1 + json]
told = {{"bundle": "bundle\\n", "check": os.environ["LINES"], "cost": os.environ.get("COST"),
        "reach": "as \\nipv4 10.1.0.0/16\\nipv6 \\n", "refusals": os.environ.get("REASONS", {REASONS!r})}}
text = open(bundle, "rb").read() if bundle and asked == "bundle" else told[asked].encode()
if bundle and asked == "check":
    octets = sys.stdin.buffer.read()
    if "ECHO" in os.environ:
        text = octets
    elif "BY" in os.environ:
        names = eval(os.environ["BY"])
        text = "".join(names[name] for name in names if bytes((19, len(name))) + name.encode() in octets).encode()
    else:
        is_there = any(bytes((22, len(uri))) + uri.encode() in octets for uri in os.environ["AT"].split())
        step, deed = is_there and "check", deed if step == "check" else "hangs 600"
if asked == step:
    if deed == "lacks":
        sys.stderr.write("out of memory\\n")
        sys.exit(1)
    if deed == "fails":
        sys.stdout.buffer.write(text[:20])
        sys.exit(2 if asked == "cost" else 1)
    if deed == "eats":
        taken = bytearray(b"1") * (300 << 20)
        time.sleep(600)
    if deed == "dies":
        os.kill(os.getpid(), 9)
    if deed.startswith("hangs") and sys.argv[2:] != ["10000"]:
        open(os.environ["READY"], "w").close()
        time.sleep(float(deed.split(" ")[1]))
try:
    while text:
        text = text[os.write(1, text):]
except OSError:
    os.write(2, b"write fault\\n")
    os._exit(1)
sys.exit(asked == "cost")
"""
# Kills the run at the N-th call of a function of os, before or after what it does.
KILLED = """
import os, signal, sys
sys.path.insert(0, sys.argv[1])
sys.dont_write_bytecode = True
name, count, after = sys.argv[2], int(sys.argv[3]), sys.argv[4] == "after"
real, process = getattr(os, name), os.getpid()
def call(*words, **how):
    global count
    if os.getpid() != process:
        return real(*words, **how)
    count -= 1
    if count == 0 and not after:
        os.kill(os.getpid(), signal.SIGKILL)
    told = real(*words, **how)
    if count == 0:
        os.kill(os.getpid(), signal.SIGKILL)
    return told
import places
import validate
def refuse(*_):
    raise places.Unsupported
if "FALLBACK" in os.environ:
    places.rename = refuse
setattr(os, name, call)
sys.argv = ["validate.py", *sys.argv[5:]]
sys.exit(validate.main())
"""


def same(what, got, wanted):
    if got != wanted:
        sys.exit(f"{what}: {got!r} in place of {wanted!r}")
    print(f"{what}: ok", flush=True)


def read(path):
    with open(path) as file:
        return file.read()


def write(path, text):
    with open(path, "w") as file:
        file.write(text)
    return path


class Room:
    """A folder with a stand-in, a file that is there already, and what runs validate.py over the example cache."""

    def __init__(self, folder):
        self.folder = folder
        self.out, self.kept = self.path("out", "routes.json"), self.path("out", "kept")
        self.ready = self.path("ready")
        os.mkdir(self.path("out"))
        self.fake = write(self.path("rpki_check"), STAND_IN)
        os.chmod(self.fake, 0o755)
        self.cache = os.path.join(EXAMPLES, "cache")

    def path(self, *names):
        return os.path.join(self.folder, *names)

    def words(self, *others, cache=None):
        cache = cache or self.cache
        out = [] if "--out" in others else ["--out", self.out]
        programs = ["--checker", self.fake, "--asker", self.fake]
        return [cache, "--tals", os.path.join(self.cache, "tals"), *out, *programs, "--jobs", "1", *others]

    def environment(self, fake, lines):
        return {**os.environ, "FAKE": fake, "LINES": lines, "READY": self.ready}

    def run(self, *others, fake="", lines=LINES, cache=None, before=(sys.executable, os.path.join(TOOLS, "validate.py")), **more):
        words = [*before, *self.words(*others, cache=cache)]
        environment = {**self.environment(fake, lines), **more}
        return subprocess.run(words, env=environment, capture_output=True, text=True, timeout=SECONDS)

    def start(self, *others, fake="", lines=LINES, **more):
        with contextlib.suppress(FileNotFoundError):
            os.remove(self.ready)
        words = [sys.executable, os.path.join(TOOLS, "validate.py"), *self.words(*others)]
        environment = {**self.environment(fake, lines), **more}
        return subprocess.Popen(words, env=environment, stderr=subprocess.PIPE, text=True)

    def reset(self):
        write(self.out, OLD)

    def left(self):
        """What stands beside the file."""
        names = set(os.listdir(self.path("out"))) - {"routes.json", "routes.json.status.json", "kept"}
        return sorted(name for name in names if not name.startswith("kept.status-"))

    def is_old(self, what):
        same(f"{what}: the old file", (read(self.out), self.left()), (OLD, []))

    def is_new(self, what, *others):
        done = self.run(*others)
        made = json.loads(read(self.out)) if done.returncode == 0 else {}
        same(f"{what}: the next run", (done.returncode, len(made.get("roas", [])), self.left()), (0, 1, []))


def statuses(room):
    """Each step's failure has a status of its own, and leaves the file."""
    room.reset()
    empty = room.path("empty")
    os.mkdir(empty)
    same("an empty cache", room.run(cache=empty).returncode, 6)
    room.is_old("an empty cache")
    # (what dies by the signal that the kernel ends programs with lacked memory)
    cases = (("bundle fails", 4), ("bundle dies", 8), ("check fails", 5), ("check dies", 8))
    for fake, status in cases:
        done = room.run(fake=fake)
        same(fake, (done.returncode, "Traceback" in done.stderr), (status, False))
        room.is_old(fake)
    for lines in (LINES[:-1], "roa AS1 192.0.2.1/24 24\n", "\xe4\n", "\0", LINES + "not a bundle\n"):
        same(f"lines {lines[-20:]!a}", room.run(lines=lines.replace("\0", "\n")).returncode, 5)
        room.is_old("other lines")
    for words in (["--moment", "20250230000000Z"], ["--form", "other"], ["--depth", "0"], ["--layout", "other"],
                  ["--jobs", "x"], ["--time-limit", "-1"], ["--quarantine", "x"]):
        same(f"{words}", room.run(*words).returncode, 2)
        room.is_old(f"{words}")
    for words in (["--checker", room.path("none")], ["--checker", room.folder], ["--checker", room.out],
                  ["--out", room.path("out")], ["--out", room.path("none", "routes.json")], ["--work", room.path("none")],
                  ["--keep", room.path("none", "kept")], ["--keep", room.out], ["--keep", EXAMPLES]):
        done = room.run(*words)
        same(f"{words[0]} {os.path.basename(words[1])}", (done.returncode, "Traceback" in done.stderr), (1, False))
        room.is_old(f"{words}")


def told(room):
    """The summary and the file's form."""
    room.reset()
    done = room.run("--moment", "20250101000000Z")
    for text in ("1 origins, 1 customers", "refused: object 1, point 1", "check", "is new"):
        same(f"told: {text}", text in done.stderr, True)
    same("nothing on standard output", (done.returncode, done.stdout), (0, ""))
    same("told: reasons", "reasons: manifest-next-update 1, object-unreadable 1\n" in done.stderr, True)
    same("build time", json.loads(read(room.out))["metadata"]["buildtime"], "2025-01-01T00:00:00Z")
    done = room.run("--form", "csv")
    wanted = "ASN,Prefix,Max prefix length\nAS64496,192.0.2.0/24,24\n"
    same("csv", (read(room.out), "providers left out: 1" in done.stderr), (wanted, True))
    room.run("--form", "openbgpd", "--no-aspa", "--name", "here", "--lifetime", "0")
    same("openbgpd", read(room.out).splitlines()[1:], ["roa-set {", "\t192.0.2.0/24 source-as 64496", "}"])


def reasons(room):
    """Refusals are counted by reason; where reasons can't be had the file is new all the same, and the summary says why."""
    done = room.run(lines="roa AS64496 192.0.2.0/24 24\n", fake="refusals fails")
    same("no refusals, no reasons", (done.returncode, "reasons" in done.stderr), (0, False))
    kept, none, empty = (room.path(name) for name in ("reasons", "none", "no-program"))
    os.chmod(write(empty, ""), 0o755)
    others = f"what {room.fake} tells aren't reasons"
    for what, words, how, wanted in (
        ("none that are known", ("--asker", none), {}, f"{none} is no program"),
        ("an asker that doesn't start", ("--asker", empty), {}, f"{empty} doesn't start: Exec format error"),
        ("a failure", (), {"fake": "refusals fails"}, "rpki_ask refusals ended with status 1"),
        ("a death", (), {"fake": "refusals dies"}, "rpki_ask refusals was ended by signal 9, as it is where memory is short"),
        ("no end", ("--time-limit", TIME_LIMIT), {"fake": "refusals hangs 600"}, f"rpki_ask refusals hadn't ended after {TIME_LIMIT} seconds"),
        ("no JSON", (), {"REASONS": "refused\n"}, others),
        ("other JSON", (), {"REASONS": "[]\n"}, others),
        ("other rows", (), {"REASONS": '{"refused":[1]}\n'}, others),
        ("all", (), {}, None),
    ):
        room.reset()
        done = room.run("--keep", kept, *words, **how)
        same(f"reasons, {what}", (done.returncode, read(room.out) == OLD, room.left()), (0, False, []))
        told = json.loads(read(os.path.join(kept, "summary.json")))
        counted = None if wanted else {"manifest-next-update": 1, "object-unreadable": 1}
        same(f"reasons, {what}: kept", (told["reasons"], told["reasons_unknown"]), (counted, wanted))
        same(f"reasons, {what}: told", f"reasons: not known: {wanted}\n" in done.stderr, bool(wanted))


def files(room):
    """Permissions stay; a link's target is replaced; what lies beside from a killed run goes."""
    room.reset()
    os.chmod(room.out, 0o640)
    room.is_new("permissions")
    same("permissions", stat.S_IMODE(os.stat(room.out).st_mode), 0o640)
    link = room.path("link")
    os.symlink(room.out, link)
    room.reset()
    same("a link", (room.run("--out", link).returncode, os.path.islink(link), read(room.out) == OLD), (0, True, False))
    work = room.path("out", ".routes.json.work")
    os.makedirs(os.path.join(work, "checked", "rsync"))
    write(os.path.join(work, "bundle"), "half")
    write(room.path("out", ".routes.json.new"), "half")
    room.is_new("what was left")
    os.symlink(room.path("empty"), work)
    room.reset()
    same("a link in the work folder's place", (room.run().returncode, read(room.out), os.path.islink(work)), (1, OLD, True))
    os.remove(work)


def evidence(room):
    """What is kept belongs to the file, and is replaced whole."""
    for count in range(2):
        room.is_new(f"kept {count}", "--keep", room.kept, "--known", room.kept)
        same("kept", sorted(os.listdir(room.kept)), ["bundle", "lines", "summary.json", "verdicts"])
        told = json.loads(read(os.path.join(room.kept, "summary.json")))
        same("its summary", (told["origins"], told["verdicts"]["signatures"]["known"] > 0), (1, count > 0))
        digest = subprocess.run(["sha256sum", os.path.join(room.kept, "bundle")], capture_output=True, text=True).stdout[:64]
        same("its digest", (json.loads(read(room.out))["metadata"]["bundle"], told["sha256"]["bundle"]), (digest, digest))
    room.reset()
    same("a failing run", room.run("--keep", room.kept, fake="check fails").returncode, 5)
    same("keeps what was kept", sorted(os.listdir(room.kept)), ["bundle", "lines", "summary.json", "verdicts"])
    write(os.path.join(room.kept, "mine"), "")
    same("other things in it", room.run("--keep", room.kept).returncode, 1)
    room.is_old("other things in it")
    os.remove(os.path.join(room.kept, "mine"))


def ended(room):
    """Signals in each step: the file stands, nothing is left, and the process ends by the signal."""
    for number in (signal.SIGTERM, signal.SIGINT, signal.SIGHUP):
        for fake in ("bundle hangs 30", "check hangs 30"):
            room.reset()
            run = room.start(fake=fake)
            last = time.monotonic() + SECONDS
            while not os.path.exists(room.ready) and time.monotonic() < last:
                time.sleep(0.02)
            run.send_signal(number)
            run.communicate(timeout=SECONDS)
            same(f"{fake}, {number.name}", run.returncode, -number)
            room.is_old(fake)
    room.reset()
    run = room.start()
    run.stderr.readline()
    run.terminate()
    run.communicate(timeout=SECONDS)
    same("while signatures are checked", run.returncode, -signal.SIGTERM)
    room.is_old("while signatures are checked")
    room.is_new("after signals")


def one_at_a_time(room):
    """A second run for the file ends at once, even where the first was killed and what it started lives on."""
    room.reset()
    run = room.start(fake="bundle hangs 20")
    while not os.path.exists(room.ready):
        time.sleep(0.02)
    same("a second run", room.run().returncode, 75)
    run.kill()
    run.wait()
    same("of a killed run", (room.run().returncode, read(room.out)), (75, OLD))
    lock = os.open(room.path("out", ".routes.json.work"), os.O_RDONLY)
    fcntl.flock(lock, fcntl.LOCK_EX)
    os.close(lock)
    room.is_new("after it")


def killed(room):
    """Killed before and after each wait for the disk and each change of a folder: the file is old or new, never a part, and
    so is what is kept."""
    seen = set()
    for name, most in (("fsync", 10), ("rename", 8), ("replace", 3), ("mkdir", 4), ("remove", 3)):
        for count, when in ((count, when) for count in range(1, most) for when in ("before", "after")):
            room.reset()
            before = (sys.executable, "-c", KILLED, TOOLS, name, str(count), when)
            done = room.run("--keep", room.kept, before=before)
            if done.returncode == 0:
                break
            is_old = read(room.out) == OLD
            is_whole = is_old or len(json.loads(read(room.out))["roas"]) == 1
            same(f"killed {when} {name} {count}", (done.returncode, is_whole), (-signal.SIGKILL, True))
            same("what is kept", sorted(os.listdir(room.kept)), ["bundle", "lines", "summary.json", "verdicts"])
            seen.add((name, when, is_old))
        room.is_new(f"killed at each {name}", "--keep", room.kept)
    same("the last rename", {("replace", "before", True), ("replace", "after", False)} <= seen, True)


def fallback(room):
    """Where the file system can't exchange two folders, what was kept is put back by the next run, whatever that does."""
    room.is_new("before", "--keep", room.kept)
    absent = 0
    for count in range(5, 9):
        for when in ("before", "after"):
            room.reset()
            before = (sys.executable, "-c", KILLED, TOOLS, "rename", str(count), when)
            done = room.run("--keep", room.kept, before=before, FALLBACK="1")
            absent += not os.path.exists(room.kept)
            same("the file", (done.returncode in (0, -signal.SIGKILL), done.returncode == 0 or read(room.out) == OLD), (True, True))
            done = room.run("--keep", room.kept, fake="bundle fails")
            kept = sorted(os.listdir(room.kept))
            same(f"put back, {when} {count}", (done.returncode, kept), (4, ["bundle", "lines", "summary.json", "verdicts"]))
    same("it was gone between two renames", absent, 2)


# Who is left out.


class Crowd:
    """A room in which `check` hangs as long as the bundle has the manifests of some of the holders."""

    def __init__(self, room):
        self.room = room
        self.world, self.holders = crowded()
        self.octets = self.world.bundle()
        self.path = room.path("crowded")
        with open(self.path, "wb") as file:
            file.write(self.octets)
        rows = rpki_model.walk(self.octets).chains_below()
        self.counts, self.cost = {uri: chains for chains, uri in rows}, counted(rows, True)

    def environment(self, *names, **more):
        manifests = [it.manifest.decode() for it in self.holders if it.name.decode() in names]
        return {"BUNDLE": self.path, "COST": self.cost, "AT": " ".join(manifests), **more}

    def without(self, *names):
        """The bundle without the manifests of these."""
        gone = {it.manifest for it in self.holders if it.name.decode() in names}
        objects = self.world.objects
        self.world.objects = {uri: octets for uri, octets in objects.items() if uri not in gone}
        octets = self.world.bundle()
        self.world.objects = objects
        return octets

    def leaves_out(self, what, names, *others, fake="", **more):
        """A run that leaves these out, whose file and evidence say so; what is told of each."""
        room = self.room
        room.reset()
        done = room.run("--time-limit", TIME_LIMIT, "--keep", room.kept, *others, fake=fake, **self.environment(*names, **more))
        uris = [f"rsync://r.example/m/isp/{name}.cer" for name in names]
        made = json.loads(read(room.out)) if done.returncode == 3 else {"metadata": {}}
        same(what, (done.returncode, made["metadata"].get("quarantined"), room.left()), (3, uris, []))
        told = json.loads(read(os.path.join(room.kept, "summary.json")))["quarantined"]
        same(f"{what}: the summary", [one["authority"] for one in told], uris)
        texts = [f"QUARANTINE of {uri}: at least " for uri in uris] + [f"QUARANTINED: {uri} " for uri in uris]
        same(f"{what}: standard error", [text for text in texts if text not in done.stderr], [])
        with open(os.path.join(room.kept, "bundle"), "rb") as file:
            same(f"{what}: the bundle", file.read() == self.without(*names), True)
        return told

    def leaves_none_out(self, what, names, *others, fake="", **more):
        """A run that ends without a new file."""
        self.room.reset()
        done = self.room.run("--time-limit", TIME_LIMIT, *others, fake=fake, **self.environment(*names, **more))
        same(what, (done.returncode, "Traceback" in done.stderr), (5, False))
        self.room.is_old(what)


def quarantine(room):
    """Where `check` doesn't end, those are left out who make it so, and everybody else's lines come out."""
    crowd = Crowd(room)
    same("the provider is above all three", crowd.cost.splitlines()[2].endswith("/isp.cer"), True)
    (row,) = crowd.leaves_out("the first", "a")
    found = (row["chains"], row["is_least"], row["manifests"], row["reach"])
    uri = crowd.holders[0].at
    wanted = (crowd.counts[uri], True, ["rsync://r.example/m/a/a.mft"], {"as": "", "ipv4": "10.1.0.0/16", "ipv6": ""})
    same("what is told of it", found, wanted)
    origins = [line for line in rpki_model.answer(crowd.without("a")) if line.startswith("roa ")]
    same("everybody else's origins", origins, ["roa AS64498 10.2.0.0/16 16", "roa AS64499 10.3.0.0/16 16"])
    crowd.leaves_out("both", "ab")
    crowd.leaves_out("both, of two at most", "ab", "--quarantine", "2")
    crowd.leaves_out("memory", "ab", fake="check lacks")
    crowd.leaves_out("killed", "a", fake="check dies")
    crowd.leaves_out("counted by a smaller budget", "a", fake="cost hangs 600")
    (row,) = crowd.leaves_out("no numbers", "a", fake="reach hangs 600")
    same("no numbers are told", row["reach"], None)
    crowd.leaves_none_out("both, of one at most", "ab", "--quarantine", "1")
    crowd.leaves_none_out("none at most", "a", "--quarantine", "0")
    crowd.leaves_none_out("a count that fails", "a", fake="cost fails")
    crowd.leaves_none_out("nobody is counted", "a", COST="")
    crowd.leaves_none_out("the anchor alone is counted", "a", COST="9 rsync://r.example/m/ta.cer\n")
    crowd.leaves_none_out("one that nothing is below", "a", COST="9 rsync://r.example/m/isp/c.cer\n")
    crowd.leaves_none_out("no such program", "a", "--asker", room.path("none"))
    crowd.leaves_none_out("another fault", "a", fake="check fails")
    meanwhile(crowd)


def meanwhile(crowd):
    """The old file stands while `check` and `cost` run, and after signals in them."""
    room = crowd.room
    for fake in ("", "cost hangs 600"):
        room.reset()
        run = room.start("--time-limit", TIME_LIMIT if fake else str(SECONDS), fake=fake, **crowd.environment("a"))
        last = time.monotonic() + SECONDS
        for _ in range(2 if fake else 1):
            while not os.path.exists(room.ready) and time.monotonic() < last:
                time.sleep(0.02)
            same(f"{fake or 'check hangs'}: meanwhile", read(room.out), OLD)
            with contextlib.suppress(FileNotFoundError):
                os.remove(room.ready)
        run.send_signal(signal.SIGTERM)
        run.communicate(timeout=SECONDS)
        same(f"{fake or 'check hangs'}: a signal", run.returncode, -signal.SIGTERM)
        room.is_old("a signal while it is found out who")


def real(room, program):
    """The example cache by the program itself."""
    done = room.run("--checker", program, "--moment", "20250101000000Z", "--name", "example")
    same("the example", (done.returncode, read(room.out)), (0, read(os.path.join(EXAMPLES, "cache.json"))))


def main():
    with tempfile.TemporaryDirectory() as folder:
        room = Room(folder)
        statuses(room)
        told(room)
        reasons(room)
        files(room)
        evidence(room)
        ended(room)
        one_at_a_time(room)
        quarantine(room)
        killed(room)
        fallback(room)
        if sys.argv[1:]:
            real(room, os.path.abspath(sys.argv[1]))


if __name__ == "__main__":
    main()
