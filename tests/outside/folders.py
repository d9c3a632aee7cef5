#!/usr/bin/env python3
"""Folders from outside: `rpki_check bundle FOLDER`, and what it writes read by `rpki_check check`.

    folders.py PROGRAM [--few]

With --few what takes long, or gigabytes of memory, is left out: 1,000,000 entries and one more, and more octets than a bundle can hold.
"""

import os
import resource
import socket
import subprocess
import sys
import tempfile

MOMENT = b"20250101000000Z"
HEAD = "02 01 00 18 0F 32 30 32 35 30 31 30 31 30 30 30 30 30 30 5A 02 01 20"
EMPTY = bytes.fromhex("30 1D" + HEAD + "30 00 30 00 30 00")
WITH_LOCATOR = bytes.fromhex("30 24" + HEAD + "30 07 30 05 13 01 78 04 00 30 00 30 00")
WITH_OBJECT = bytes.fromhex(
    "30 30" + HEAD + "30 00 30 13 30 11 16 0D 72 73 79 6E 63 3A 2F 2F 61 2F 6D 2F 78 04 00 30 00"
)
NOT_A_BUNDLE = b"not a bundle\n"
READ_FAULT = b"read fault\n"

program = ""
failures = []
counts = {"run": 0, "skipped": 0}


def length(n):
    if n < 128:
        return bytes([n])
    octets = n.to_bytes((n.bit_length() + 7) // 8, "big")
    return bytes([128 + len(octets)]) + octets


def value(tag, content):
    return bytes([tag]) + length(len(content)) + content


def bundle(locators=(), objects=(), verdicts=(), moment=MOMENT, depth=32):
    """The octets of a bundle with these parts, in this order."""
    return value(
        0x30,
        value(2, b"\0")
        + value(24, moment)
        + value(2, bytes([depth]))
        + value(0x30, b"".join(value(0x30, value(19, n) + value(4, t)) for n, t in locators))
        + value(0x30, b"".join(value(0x30, value(22, u) + value(4, o)) for u, o in objects))
        + value(0x30, b"".join(value(0x30, b"".join(value(4, d) for d in v)) for v in verdicts)),
    )


def put(folder, name, octets):
    path = os.path.join(os.fsencode(folder), os.fsencode(name))
    os.makedirs(os.path.dirname(path), exist_ok=True)
    with open(path, "wb") as file:
        file.write(octets)


def run(*words, stdin=b""):
    return subprocess.run([program, *words], input=stdin, capture_output=True, timeout=600)


def expect(name, condition, seen):
    counts["run"] += 1
    if not condition:
        failures.append(name)
        print(f"failed: {name}: {seen!r}")


class Folder:
    """A temporary folder with a moment and a depth."""

    def __init__(self, name, moment=MOMENT + b"\n", depth=b"32"):
        self.name = name
        self.moment = moment
        self.depth = depth

    def __enter__(self):
        self.temporary = tempfile.TemporaryDirectory()
        self.path = os.path.join(self.temporary.name, "folder")
        os.mkdir(self.path)
        if self.moment is not None:
            put(self.path, "moment", self.moment)
        if self.depth is not None:
            put(self.path, "depth", self.depth)
        return self

    def __exit__(self, *_):
        self.temporary.cleanup()

    def put(self, name, octets=b""):
        put(self.path, name, octets)

    def at(self, name):
        return os.path.join(os.fsencode(self.path), os.fsencode(name))

    def gives(self, octets):
        seen = run("bundle", self.path)
        expect(self.name, (seen.returncode, seen.stdout, seen.stderr) == (0, octets, b""), seen)
        return seen

    def fails(self, text):
        seen = run("bundle", self.path)
        expect(self.name, (seen.returncode, seen.stdout, seen.stderr) == (1, b"", text), seen)


def plain():
    with Folder("empty") as f:
        f.gives(EMPTY)
    with Folder("one locator") as f:
        f.put("tals/x.tal")
        f.gives(WITH_LOCATOR)
        seen = run("check", stdin=run("bundle", f.path).stdout)
        expect("check of one locator", (seen.returncode, seen.stdout) == (0, b"refused x tal\n"), seen)
    with Folder("one object") as f:
        f.put("rsync/a/m/x")
        f.gives(WITH_OBJECT)
        seen = run("check", stdin=run("bundle", f.path).stdout)
        expect("check of one object", (seen.returncode, seen.stdout, seen.stderr) == (0, b"", b""), seen)
    with Folder("a slash behind the folder") as f:
        f.put("rsync/a/m/x")
        f.path += "/"
        f.gives(WITH_OBJECT)
    with Folder("other entries are left alone") as f:
        f.put("relax")
        f.put("other/x")
        os.mkfifo(f.at("pipe"))
        put(f.path, b"\xff", b"")
        f.gives(EMPTY)
    for text, flag in ((b"true", b"\1\1\xff"), (b"false\r\n", b"\1\1\0")):
        with Folder("version 1") as f:
            put(f.path, b"relaxed", text)
            f.gives(EMPTY[:1] + bytes([EMPTY[1] + 3]) + EMPTY[2:].replace(b"\2\1\0", b"\2\1\1", 1)[:-6] + flag + EMPTY[-6:])
    for text in (b"", b"True", b"true\n\n"):
        with Folder("a flag that is none") as f:
            put(f.path, b"relaxed", text)
            f.fails(b"not a bundle\n")
    with Folder("empty folders") as f:
        for name in ("tals", "rsync", "https", "rsync/a"):
            os.mkdir(f.at(name))
        f.put("verdicts")
        f.gives(EMPTY)


def many():
    with Folder("sorted lists") as f:
        names = [b"b", b"a", b"ab", b"B", b"z?", b"a.b"]
        for n in names:
            put(f.path, b"tals/" + n + b".tal", n * 3)
        uris = [b"rsync://a/m/x", b"rsync://a/m/b/c", b"https://h/z", b"rsync://a.b/m/x", b"https://h/y/z"]
        for u in uris:
            put(f.path, u.replace(b"://", b"/"), u + b"!")
        expected = bundle(sorted((n, n * 3) for n in names), sorted((u, u + b"!") for u in uris))
        f.gives(expected)
        seen = run("check", stdin=expected)
        refusals = b"".join(b"refused %s tal\n" % name for name in sorted(names))
        expect("check reads it", (seen.stdout, seen.stderr) == (refusals, b""), seen)
    with Folder("a thousand objects of some size") as f:
        objects = [(b"rsync://h/m/%d" % (i * 7919 % 1000), b"%d" % i * 500) for i in range(1000)]
        for u, o in objects:
            put(f.path, u.replace(b"://", b"/"), o)
        expected = bundle(objects=sorted(objects))
        f.gives(expected)
        seen = run("check", stdin=expected)
        expect("check reads the thousand", (seen.returncode, seen.stdout, seen.stderr) == (0, b"", b""), seen)
    with Folder("a large file") as f:
        octets = os.urandom(5_000_000)
        f.put("https/h/large", octets)
        f.gives(bundle(objects=[(b"https://h/large", octets)]))


def one_line():
    for moment in (MOMENT, MOMENT + b"\n", MOMENT + b"\r\n"):
        for depth in (b"32", b"32\n", b"32\r\n"):
            with Folder(f"{moment} {depth}", moment, depth) as f:
                f.gives(EMPTY)
    for n in (1, 9, 10, 31):
        with Folder(f"depth {n}", depth=b"%d\n" % n) as f:
            f.gives(bundle(depth=n))
    for depth in (b"032", b"0", b"33", b"99", b"320", b"", b"\n", b"32 ", b" 32", b"+9", b"3\r", b"32\r", b"3\n\n", b"32\n\n", b"3a", b"1\xb2", b"100"):
        with Folder(f"depth {depth}", depth=depth) as f:
            f.fails(NOT_A_BUNDLE)
    for moment in (b"", b"\n", MOMENT + b"\r", MOMENT + b"\n\n", MOMENT + b" ", MOMENT[:-1], b"20250229000000Z", b"2025010100000Z", b"20250101000060Z", b"20250101000000z"):
        with Folder(f"moment {moment}", moment=moment) as f:
            f.fails(NOT_A_BUNDLE)


def verdict_lines():
    first, second = bytes(range(96)), bytes(range(160, 256))

    def line(octets, upper=False):
        words = [octets[i : i + 32].hex() for i in (0, 32, 64)]
        text = " ".join(words)
        return (text.upper() if upper else text).encode()

    def rows(*octets):
        return bundle(verdicts=[(o[:32], o[32:64], o[64:]) for o in octets])

    a, b = line(first), line(second)
    mixed = line(second, True)[:40] + line(second)[40:]
    good = [
        (b"", rows()),
        (a, rows(first)),
        (a + b"\n", rows(first)),
        (a + b"\r\n", rows(first)),
        (a + b"\n" + b, rows(first, second)),
        (b + b"\n" + a, rows(first, second)),
        (b + b"\r\n" + a, rows(first, second)),
        (b + b"\r\n" + a + b"\n", rows(first, second)),
        (b + b"\n" + a + b"\r\n", rows(first, second)),
        (line(second, True) + b"\n" + a + b"\n", rows(first, second)),
        (mixed + b"\n", rows(second)),
    ]
    for text, octets in good:
        with Folder(f"verdicts {text}") as f:
            f.put("verdicts", text)
            seen = f.gives(octets)
            read = run("check", stdin=seen.stdout)
            expect(f"check of verdicts {text}", (read.returncode, read.stdout) == (0, b""), read)
    bad = [
        b"\n",
        b"\r\n",
        b" ",
        a + b"\r",
        a + b"\n\n",
        a + b"\n\r\n",
        b"\n" + a,
        a + b"\n\n" + b,
        a + b"\n" + a,
        b + b"\n" + line(second, True) + b"\n",
        a + b + b"\n",
        a + b" \n",
        b" " + a,
        a[:-1] + b"\n",
        a + b"0\n",
        a.replace(b" ", b"  "),
        a.replace(b" ", b"\t"),
        a.replace(b"0", b"g", 1),
        a.replace(b"0", b"G", 1),
        b"@" + a[1:],
        b"`" + a[1:],
        a[:129] + b"\n",
        a + b"\n" + b + b"\r",
    ]
    for text in bad:
        with Folder(f"bad verdicts {text}") as f:
            f.put("verdicts", text)
            f.fails(NOT_A_BUNDLE)


def no_bundles():
    for name in ("rsync/A/m/x", "rsync/a", "rsync/a/m x/y", "rsync/a/m/é", "tals/.tal", "tals/a b.tal", "tals/é.tal", "tals/a_b.tal"):
        with Folder(name) as f:
            f.put(name)
            f.fails(NOT_A_BUNDLE)
    with Folder("a file right in https") as f:
        f.put("https/a")
        f.gives(bundle(objects=[(b"https://a", b"")]))
    with Folder("read fault before not a bundle", depth=b"0") as f:
        f.put("rsync/A/m/x")
        os.mkfifo(f.at("rsync/a"))
        f.fails(READ_FAULT)


def skipped_locators():
    with Folder("skipped entries of tals") as f:
        f.put("tals/x.tal")
        f.put("tals/x.TAL", b"other")
        f.put("tals/readme")
        f.put("tals/tal")
        os.makedirs(f.at("tals/folder.tal/deeper"))
        os.mkfifo(f.at("tals/folder.tal/pipe"))
        f.gives(WITH_LOCATOR)
    with Folder("a pipe in tals") as f:
        f.put("tals/x.tal")
        os.mkfifo(f.at("tals/pipe"))
        f.fails(READ_FAULT)
    with Folder("a name in tals that isn't UTF-8") as f:
        put(f.path, b"tals/\xff", b"")
        f.fails(READ_FAULT)
    with Folder("a broken link in tals") as f:
        f.put("tals/x.tal")
        os.symlink(b"nothing", f.at("tals/other"))
        f.fails(READ_FAULT)


def read_faults():
    with Folder("no moment", moment=None) as f:
        f.fails(READ_FAULT)
    with Folder("no depth", depth=None) as f:
        f.fails(READ_FAULT)
    with Folder("no moment, bad depth", moment=None, depth=b"0") as f:
        f.fails(READ_FAULT)
    for name in ("moment", "depth", "verdicts"):
        keep = {name: None} if name != "verdicts" else {}
        with Folder(f"a folder {name}", **keep) as f:
            os.mkdir(f.at(name))
            f.fails(READ_FAULT)
        with Folder(f"a pipe {name}", **keep) as f:
            os.mkfifo(f.at(name))
            f.fails(READ_FAULT)
        with Folder(f"a broken link {name}", **keep) as f:
            os.symlink(b"nothing", f.at(name))
            f.fails(READ_FAULT)
    for name in ("tals", "rsync", "https"):
        with Folder(f"a file {name}") as f:
            f.put(name)
            f.fails(READ_FAULT)
        with Folder(f"a broken link {name}") as f:
            os.symlink(b"nothing", f.at(name))
            f.fails(READ_FAULT)
    with Folder("a pipe among objects") as f:
        os.makedirs(f.at("rsync/a/m"))
        os.mkfifo(f.at("rsync/a/m/x"))
        f.fails(READ_FAULT)
    with Folder("a socket among objects") as f:
        os.makedirs(f.at("https/a"))
        listener = socket.socket(socket.AF_UNIX)
        listener.bind(os.fsdecode(f.at("https/a/s")))
        f.fails(READ_FAULT)
        listener.close()
    with Folder("a broken link among objects") as f:
        os.makedirs(f.at("rsync/a/m"))
        os.symlink(b"nothing", f.at("rsync/a/m/x"))
        f.fails(READ_FAULT)
    with Folder("a link that leads to itself") as f:
        os.makedirs(f.at("rsync/a/m"))
        os.symlink(b"x", f.at("rsync/a/m/x"))
        f.fails(READ_FAULT)
    for name in (b"rsync/a/m/\xff", b"rsync/\xff/m/x", b"https/a/\xc3"):
        with Folder(f"{name}") as f:
            put(f.path, name, b"")
            f.fails(READ_FAULT)
    for name in ("rsync/a/m/x", "moment", "tals/x.tal", "verdicts"):
        with Folder(f"unreadable {name}") as f:
            f.put(name, MOMENT)
            os.chmod(f.at(name), 0)
            if os.geteuid() == 0:
                counts["skipped"] += 1
            else:
                f.fails(READ_FAULT)
    with Folder("an unreadable folder") as f:
        os.makedirs(f.at("rsync/a"))
        os.chmod(f.at("rsync/a"), 0)
        if os.geteuid() == 0:
            counts["skipped"] += 1
        else:
            f.fails(READ_FAULT)
        os.chmod(f.at("rsync/a"), 0o700)
    for words in (("/nonexistent/folder",), ("",), ("/dev/null",)):
        seen = run("bundle", *words)
        expect(f"bundle {words}", (seen.returncode, seen.stdout, seen.stderr) == (1, b"", READ_FAULT), seen)


def links():
    with Folder("links are followed") as f:
        f.put("elsewhere/file", b"octets")
        os.makedirs(f.at("rsync/a"))
        os.symlink(b"../../elsewhere", f.at("rsync/a/m"))
        os.symlink(b"elsewhere/file", f.at("verdicts"))
        f.fails(NOT_A_BUNDLE)
        os.remove(f.at("verdicts"))
        f.gives(bundle(objects=[(b"rsync://a/m/file", b"octets")]))


def deep():
    for scheme in ("rsync", "https"):
        with Folder(f"64 folders in {scheme}") as f:
            path = "/".join(["f"] * 63)
            f.put(f"{scheme}/{path}/x", b"deep")
            f.gives(bundle(objects=[(f"{scheme}://{path}/x".encode(), b"deep")]))
        with Folder(f"65 folders in {scheme}") as f:
            os.makedirs(f.at(scheme + "/" + "/".join(["f"] * 64)))
            f.fails(READ_FAULT)
    with Folder("a folder that leads to itself") as f:
        os.makedirs(f.at("rsync/a"))
        os.symlink(b".", f.at("rsync/a/m"))
        f.fails(READ_FAULT)


def too_many():
    """1,000,001 entries without a million files: folders that are links to one another."""
    def folder(f, more):
        # 1,000 links to a folder of 998 files, beside what `rsync` itself holds.
        for i in range(998):
            f.put(f"store/{i}")
        os.mkdir(f.at("rsync"))
        os.mkdir(f.at("rsync/a"))
        for i in range(1000):
            os.symlink(b"../../store", f.at(f"rsync/a/{i:04}"))
        for i in range(more):
            f.put(f"rsync/a/more{i}")

    # 1 for `a`, 1,000 links and 998,000 files.
    with Folder("1,000,000 entries") as f:
        folder(f, 999)
        seen = run("bundle", f.path)
        expect("1,000,000 entries", (seen.returncode, seen.stderr) == (0, b""), (seen.returncode, seen.stderr))
    with Folder("1,000,001 entries") as f:
        folder(f, 1000)
        f.fails(READ_FAULT)


def sparse(f, name, octets):
    """A file of so many zeros, which takes no room on the disk."""
    f.put(name)
    os.truncate(f.at(name), octets)


def too_much():
    """More octets than a bundle can hold: they are read to their end, and not kept."""
    def folder(f):
        for number in range(5):
            sparse(f, f"rsync/a/m/{number}", 2**31)

    with Folder("five files of 2 GiB") as f:
        folder(f)
        f.fails(NOT_A_BUNDLE)
        # What is kept is what a bundle can hold, and what the program takes by itself.
        peak = resource.getrusage(resource.RUSAGE_CHILDREN).ru_maxrss
        expect("five files of 2 GiB, their memory", peak < 2**22 + 2**18, peak)
    with Folder("five files of 2 GiB and a fault") as f:
        folder(f)
        os.makedirs(f.at("https/a"))
        os.symlink(b"nothing", f.at("https/a/x"))
        f.fails(READ_FAULT)
    for name in ("moment", "depth", "verdicts", "tals/x.tal", "rsync/a/m/x"):
        with Folder(f"{name} of 4 GiB") as f:
            sparse(f, name, 2**32)
            f.fails(NOT_A_BUNDLE)


def faults_of_writing():
    with Folder("a full device") as f:
        with open("/dev/full", "wb") as full:
            seen = subprocess.run([program, "bundle", f.path], stdout=full, stderr=subprocess.PIPE, timeout=60)
        expect("a full device", (seen.returncode, seen.stderr) == (1, b"write fault\n"), seen)


def arguments():
    usage = b"usage: rpki_check check | rpki_check bundle FOLDER\n"
    for words in ((), ("bundle",), ("bundle", "a", "b"), ("Bundle", "a"), ("check", "a"), ("bundle", b"\xff")):
        seen = run(*words)
        expect(f"usage {words}", (seen.returncode, seen.stdout, seen.stderr) == (1, b"", usage), seen)


def main():
    global program
    few = sys.argv[2:] == ["--few"]
    if len(sys.argv) != 2 + few:
        sys.exit(__doc__)
    program = os.path.abspath(sys.argv[1])
    small = (plain, many, one_line, verdict_lines, no_bundles, skipped_locators, read_faults, links, deep, faults_of_writing, arguments)
    for part in small if few else (*small, too_many, too_much):
        part()
    skipped = f", {counts['skipped']} skipped, as root reads all" if counts["skipped"] else ""
    print(f"{counts['run'] - len(failures)} passed, {len(failures)} failed{skipped}")
    sys.exit(1 if failures else 0)


main()
