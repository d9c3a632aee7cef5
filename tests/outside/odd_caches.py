#!/usr/bin/env python3
"""Asks tools/verdicts.py about caches that hold what no honest publisher puts there.

    odd_caches.py [PROGRAM]

What is compared comes from what was made, by bench/repository.py: a cache with oddities has to give, octet by octet, the
folder of the cache without them, and the summary has to tell each. With PROGRAM, a built `rpki_check`, folders at the
limits are bundled too. Exits with 1 at the first answer that differs.
"""

import json
import os
import shutil
import socket
import subprocess
import sys
import tempfile

HERE = os.path.dirname(os.path.abspath(__file__))
TOOLS = os.path.join(HERE, os.pardir, os.pardir, "tools")
sys.dont_write_bytecode = True
sys.path.insert(0, os.path.join(HERE, os.pardir, os.pardir, "bench"))
sys.path.insert(0, TOOLS)

import repository  # noqa: E402

AUTHORITIES, ORIGINS, CUSTOMERS = 2, 3, 1
# Of each authority and of the anchor: certificate, list, and two of the manifest; of each object two.
SIGNATURES = 4 * (AUTHORITIES + 1) + 2 * AUTHORITIES * (ORIGINS + CUSTOMERS)
POINT = f"rsync/{repository.HOST}/repository"
SECRET = b"what lies outside of the cache"
NOBODY = 65534
SECONDS = 120
# A run of verdicts.py, before which something else is done.
PREPARED = "import sys\nsys.path.insert(0, {tools!r})\n{code}\nimport verdicts\nsys.exit(verdicts.main())"
# Turns a run of root's into nobody's, when all modules are there that it needs.
AS_NOBODY = f"""
import _strptime, encodings.unicode_escape, multiprocessing.popen_fork, os, verdicts
os.setgroups([])
os.setresgid({NOBODY}, {NOBODY}, {NOBODY})
os.setresuid({NOBODY}, {NOBODY}, {NOBODY})
"""


def same(what, got, wanted):
    if got != wanted:
        sys.exit(f"{what}: {got!r} in place of {wanted!r}")
    print(f"{what}: ok", flush=True)


def lay(folder, objects):
    """Writes objects in the layout `plain`."""
    for uri, octets in objects.items():
        repository.write(os.path.join(folder, uri.replace("://", "/", 1)), octets)


class Room:
    """A folder to work in, with the locators, a cache, and what a run over it tells."""

    def __init__(self, folder, made):
        self.folder, self.made = folder, made
        self.tals, self.cache, self.out = self.path("tals"), self.path("cache"), self.path("out")
        repository.write(os.path.join(self.tals, "example.tal"), made.locator().encode())
        lay(self.cache, made.objects)

    def path(self, *names):
        return os.path.join(self.folder, *names)

    def in_cache(self, *names):
        return os.path.join(self.cache, *names)

    def words(self, cache, *others):
        words = [cache, self.out, "--tals", self.tals, "--moment", repository.MOMENT]
        return [*words, "--summary", self.path("summary"), *others]

    def run(self, cache, *others, code=None, **how):
        """A run's end and its summary; `code` runs before it, with the modules of tools at hand."""
        words = [os.path.join(TOOLS, "verdicts.py")]
        if code:
            words = ["-c", PREPARED.format(tools=TOOLS, code=code)]
        words = [sys.executable, "-B", *words, *self.words(cache, *others)]
        done = subprocess.run(words, capture_output=True, text=True, timeout=SECONDS, **how)
        if done.returncode:
            return done, None
        with open(self.path("summary")) as file:
            return done, json.load(file)

    def told(self, cache, *others, **how):
        """The summary of a run that has to end well, over what was there before."""
        done, summary = self.run(cache, *others, "--replace", **how)
        if summary is None:
            sys.exit(f"{cache}: status {done.returncode}: {done.stderr}")
        return summary


def tree(folder):
    """All files below a folder with their octets, and all folders."""
    found = {}
    for at, folders, names in os.walk(folder):
        for name in names:
            with open(os.path.join(at, name), "rb") as file:
                found[os.path.relpath(os.path.join(at, name), folder)] = file.read()
        found.update((os.path.relpath(os.path.join(at, name), folder), None) for name in folders)
    return found


def reasons(summary, key="left_out"):
    return {row["why"]: row["count"] for row in summary[key]}


def put_pipe(path):
    os.mkfifo(path)


def put_socket(path):
    """A socket's file stays when the socket is closed."""
    here = os.getcwd()
    os.chdir(os.path.dirname(path))
    try:
        with socket.socket(socket.AF_UNIX) as made:
            made.bind(os.path.basename(path))
    finally:
        os.chdir(here)


def put_large(path):
    """A file of one octet more than the limit, and one of a terabyte, of holes alone."""
    for name, size in ((path, 4_000_001), (path + "2", 1 << 40)):
        with open(name, "wb") as file:
            file.truncate(size)


def put_names(folder):
    """Names that stand in no URI."""
    for name in (b"a b.roa", b"\xff\xfe.roa", "ü.cer".encode(), b"line\nend.crl", b"\x7f", b"\x1b[31m.roa"):
        with open(os.path.join(os.fsencode(folder), name), "wb") as file:
            file.write(SECRET)


def put_links(room, folder):
    """Links to files and folders, inside and outside, to themselves, and to nothing."""
    outside = room.path("outside")
    repository.write(os.path.join(outside, "secret.roa"), SECRET)
    targets = {"own": "own.roa", "out": os.path.join(outside, "secret.roa"), "none": "nothing", "own2": "x/../own2.roa"}
    for name, target in targets.items():
        os.symlink(target, os.path.join(folder, name + ".roa"))
    for name, target in {"up": "..", "self": "self", "far": outside, "top": "/", "here": "."}.items():
        os.symlink(target, os.path.join(folder, name))


def put_devices(folder):
    """Devices that never end, where they may be made."""
    try:
        os.mknod(os.path.join(folder, "zero.roa"), 0o666 | 0o020000, os.makedev(1, 5))
        os.mknod(os.path.join(folder, "disk.roa"), 0o666 | 0o060000, os.makedev(7, 255))
    except PermissionError:
        print("devices: skipped, since only root makes them")


def put_unreadable(folder):
    for name in ("closed.roa", "closed/inner.roa"):
        repository.write(os.path.join(folder, name), SECRET)
    os.chmod(os.path.join(folder, "closed.roa"), 0)
    os.chmod(os.path.join(folder, "closed"), 0)


def put_deep(folder):
    """Folders in each other, more than there may be, and paths that are longer than any may be."""
    for name, levels in (("d", 70), ("l" * 250, 20)):
        at = os.open(folder, os.O_DIRECTORY)
        for _ in range(levels):
            os.mkdir(name, dir_fd=at)
            inner = os.open(name, os.O_DIRECTORY, dir_fd=at)
            os.close(at)
            at = inner
        with open(os.open("deepest.roa", os.O_CREAT | os.O_WRONLY, dir_fd=at), "wb") as file:
            file.write(SECRET)
        os.close(at)


def put_beside_hosts(room, top):
    """What isn't a host's folder, where hosts' folders lie."""
    put_pipe(os.path.join(top, "pipe.example"))
    os.symlink(room.path("outside"), os.path.join(top, "link.example"))
    repository.write(os.path.join(top, "file.example"), SECRET)
    repository.write(os.path.join(top, "no host", "x.roa"), SECRET)
    os.symlink(room.path("outside"), os.path.join(room.cache_odd, "https"))


# Of each oddity how often it is told: links to files, to folders, and where hosts lie; names in a folder and of a host.
TOLD = {
    "a symbolic link": 4 + 5 + 2,
    "its name isn't written as in a URI": 6 + 1,
    "a file over the limit of --max-file-size": 2,
    "below more than 64 folders": 1,
    "its path has more than 2,048 octets": 1,
    "not below the name of a host": 1,
}


def odd(room):
    """Every oddity at once, as whoever runs the tests, and as nobody, whom files may be closed to."""
    room.cache_odd = room.path("odd")
    shutil.copytree(room.cache, room.cache_odd)
    base = room.told(room.cache)
    wanted = room.wanted = tree(room.out)
    same("without oddities", (base["left_out"], base["verdicts"]), ([], SIGNATURES))
    folder = os.path.join(room.cache_odd, POINT, "a0")
    put_pipe(os.path.join(folder, "pipe.roa"))
    put_socket(os.path.join(folder, "socket.mft"))
    put_large(os.path.join(folder, "large.roa"))
    put_names(folder)
    put_links(room, folder)
    put_devices(folder)
    put_deep(folder)
    put_beside_hosts(room, os.path.join(room.cache_odd, "rsync"))
    summary = room.told(room.cache_odd)
    same("oddities: the folder", tree(room.out) == wanted, True)
    got = reasons(summary)
    same("oddities: told", {why: got.get(why) for why in TOLD}, TOLD)
    same("oddities: pipes, sockets, devices", got["neither a file nor a folder"] in (3, 5), True)
    shown = json.dumps(summary) + room.run(room.cache_odd, "--replace")[0].stderr
    same("oddities: told in plain ASCII", all(" " <= each <= "~" or each == "\n" for each in shown), True)
    closed(room, folder, wanted)


def closed(room, folder, wanted):
    """Files and folders that can't be read."""
    put_unreadable(folder)
    how = {}
    if os.geteuid() == 0:
        # (root reads all)
        room.out = room.path("nobody", "out")
        os.mkdir(room.path("nobody"))
        for path in (room.path("nobody"), room.folder):
            os.chown(path, NOBODY, NOBODY)
        os.chmod(room.path("summary"), 0o666)
        how = {"code": AS_NOBODY}
    summary = room.told(room.cache_odd, **how)
    same("unreadable: the folder", tree(room.out) == wanted, True)
    same("unreadable: told", reasons(summary).get("it can't be read"), 2)
    shutil.rmtree(room.cache_odd, ignore_errors=True)
    room.out = room.path("out")


# Folders that layouts have.
OWN_FOLDERS = {"rpki-client": ".rrdp .rsync valid ta", "fort": "rrdp rsync https", "routinator": "store ta rsync"}


def places(room):
    """Links and pipes in the place of each layout's own folders, and two hosts that differ in case alone."""
    cache = room.path("places")
    for layout, names in OWN_FOLDERS.items():
        for put in (lambda path: os.symlink(room.path("outside"), path), lambda path: os.symlink(path, path), put_pipe):
            os.mkdir(cache)
            for name in names.split():
                put(os.path.join(cache, name))
            done, _ = room.run(cache, "--layout", layout, "--replace")
            same(f"{layout}: odd places", (done.returncode, "the cache has no object" in done.stderr), (1, True))
            shutil.rmtree(cache)
    shutil.copytree(room.cache, cache)
    upper = os.path.join(cache, "rsync", repository.HOST.upper())
    shutil.copytree(os.path.join(cache, "rsync", repository.HOST), upper)
    repository.write(os.path.join(upper, "repository", "more.roa"), b"more")
    repository.write(os.path.join(upper, "repository", "a0", "o0.roa"), b"other octets")
    summary = room.told(cache)
    same("hosts in other case", (summary["objects"], summary["differing"]), (len(room.made.objects) + 1, 1))
    os.remove(os.path.join(room.out, POINT, "more.roa"))
    same("hosts in other case: the folder", tree(room.out) == room.wanted, True)
    shutil.rmtree(cache)
    clashes(room, cache)


def clashes(room, cache):
    """A folder where an earlier place has a file, and a file where it has a folder."""
    for notify in ("1", "2"):
        shutil.copytree(room.cache + f"/rsync/{repository.HOST}", f"{cache}/rrdp/{notify}/{repository.HOST}")
    top = f"{cache}/rrdp/2/{repository.HOST}/repository"
    os.remove(f"{top}/a0/o0.roa")
    repository.write(f"{top}/a0/o0.roa/inner.roa", b"inner")
    shutil.rmtree(f"{top}/a1")
    repository.write(f"{top}/a1", b"a file")
    told = reasons(room.told(cache))
    same("a file and a folder of one path", told, {"a folder has its path, or a file has that of its folder": 2})
    same("a file and a folder of one path: the folder", tree(room.out) == room.wanted, True)
    # (what can't be taken of an earlier place doesn't hide what a later one has)
    first = f"{cache}/rrdp/1/{repository.HOST}/repository/a1/o1.roa"
    os.remove(first)
    put_large(first)
    shutil.rmtree(f"{cache}/rrdp/2")
    shutil.copytree(room.cache + f"/rsync/{repository.HOST}", f"{cache}/rrdp/2/{repository.HOST}")
    summary = room.told(cache)
    same("a later place's file", (summary["verdicts"], summary["differing"]), (SIGNATURES, 0))
    shutil.rmtree(cache)


def limits(room, program):
    """More than rpki_check takes: what is over is left out and told, and what is left can be bundled."""
    for code, why in (
        ("import taking\ntaking.MOST_ENTRIES = 23", "more than rpki_check takes: it is beyond its authority's share"),
        ("import taking\ntaking.MOST_OCTETS = 25000", "more than rpki_check takes: it is beyond its authority's share"),
        ("import caches\ncaches.MOST_SEEN = 10", "beyond 1,000,000 entries of a host"),
    ):
        summary = room.told(room.cache, code=code)
        same(f"limit: {why}", reasons(summary).get(why, 0) > 0, True)
        objects = [octets for path, octets in tree(os.path.join(room.out, "rsync")).items() if octets is not None]
        same(f"limit: objects of {why}", len(objects), summary["objects"])
        same(f"limit: octets of {why}", sum(map(len, objects)), summary["octets"])
    cache = room.path("deep")
    shutil.copytree(room.cache, cache)
    repository.write(os.path.join(cache, "rsync", repository.HOST, *["d"] * 62, "x.roa"), b"deep")
    summary = room.told(cache)
    same("64 folders", (summary["left_out"], summary["objects"]), ([], len(room.made.objects) + 1))
    if program:
        done = subprocess.run([program, "bundle", room.out], capture_output=True)
        same("64 folders: a bundle", (done.returncode, done.stdout[:1]), (0, b"\x30"))
    shutil.rmtree(cache)


def main():
    made = repository.Repository(AUTHORITIES, ORIGINS, CUSTOMERS, 2)
    with tempfile.TemporaryDirectory() as folder:
        room = Room(folder, made)
        odd(room)
        places(room)
        limits(room, (sys.argv[1:] or [None])[0])


if __name__ == "__main__":
    main()
