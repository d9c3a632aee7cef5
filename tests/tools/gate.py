#!/usr/bin/env python3
"""Runs the gate and writes docs/GATE.md: what each crate costs in processor seconds. Sections behind the table are kept,
and the figures that stood there go to the end of bench/HISTORY-gate.md.

    gate.py [--log FILE] [--first NAME ..]

Runs .ci/run at the top of the repository, with its output in FILE (gate.log in a temporary folder without one), and
looks twice a second at the tools that run: for which crate, whether for its proof, its tests, its wrong bodies or what
compiles and links it once it is proved, and how much processor time each has taken. What one takes in its last half second
is missed. With --first the crates of these names, and those below them, are proved by a run of their own before it (`rt ci
NAME ..`), whose time is added: so whoever still works on crates above them can begin. Exits with the gate's status.
"""

import argparse
import collections
import datetime
import heapq
import os
import re
import shutil
import subprocess
import sys
import tempfile
import time

ROOT = os.path.realpath(os.path.join(os.path.dirname(os.path.abspath(__file__)), os.pardir, os.pardir))
PAGE = os.path.join(ROOT, "docs", "GATE.md")
HISTORY = os.path.join(ROOT, "bench", "HISTORY-gate.md")
TICKS = os.sysconf("SC_CLK_TCK")
# The toolchain's folder, in which its checker, both compilers and the linker stand.
KIT = os.path.dirname(os.path.dirname(os.path.realpath(shutil.which("rt") or "/opt/rattle/bin/rt"))) + os.sep
# How the folders begin in which `rt ci NAME` works.
COPY = os.sep + "rt-copy-"
KINDS = {"proof": "Proof", "built": "Compilers", "tests": "Tests", "edits": "Wrong bodies"}
sys.dont_write_bytecode = True
sys.path.insert(0, os.path.join(ROOT, "bench"))

import copies  # noqa: E402


def kind_of(words, where):
    """For what a tool runs: the proof of a crate, its tests, a wrong body of it, or to compile or link what was proved."""
    if os.path.basename(where).startswith("rt-edit-"):
        return "edits"
    if not words[0].endswith("/rattle") or "--crate-checked" in words:
        return "built"
    return "tests" if "--test" in words else "proof"


def crate_of(words, where):
    """The crate that a tool runs for, by its words or by the folder that it runs in; none for any other folder."""
    if "--crate-name" in words:
        return words[words.index("--crate-name") + 1]
    inside = re.search(r"/crates/([^/]+)", where)
    return inside[1] if inside else None


def tools():
    """Of each tool that runs: its process with its start, its crate, its kind and its processor seconds so far."""
    for name in os.listdir("/proc"):
        if not name.isdigit():
            continue
        try:
            with open(f"/proc/{name}/cmdline", "rb") as file:
                words = file.read().decode(errors="replace").split("\0")
            if not words[0].startswith(KIT):
                continue
            where = os.readlink(f"/proc/{name}/cwd")
            with open(f"/proc/{name}/stat") as file:
                fields = file.read().rpartition(")")[2].split()
        except OSError:
            continue
        kind, crate = kind_of(words, where), crate_of(words, where)
        # (a run of some crates works in a copy)
        if crate and (kind == "edits" or where.startswith(ROOT + os.sep) or COPY in where):
            yield (name, fields[19]), crate, kind, (int(fields[11]) + int(fields[12])) / TICKS


def watched(command, log):
    """Runs the command; its status, how long it took, and the processor seconds of each crate and kind."""
    taken, began = {}, time.monotonic()
    with open(log, "a") as out:
        run = subprocess.Popen(command, cwd=ROOT, stdout=out, stderr=subprocess.STDOUT, stdin=subprocess.DEVNULL)
        while run.poll() is None:
            for process, crate, kind, seconds in tools():
                taken[process] = crate, kind, seconds
            time.sleep(0.5)
    sums = collections.Counter()
    for crate, kind, seconds in taken.values():
        sums[crate, kind] += seconds
    return run.returncode, time.monotonic() - began, sums


def proved_and_built(sums, crate):
    """What the proof of a crate takes, with compiling and linking it where it is a program."""
    return sums[crate, "proof"] + sums[crate, "built"]


def longest_chain(needs, sums):
    """The crates that stand on each other whose proofs take longest together, from the top down, with their seconds."""
    best = {}

    def of(crate):
        if crate not in best:
            below = [of(name) for name in needs[crate] if name in needs]
            seconds, names = max(below, default=(0.0, []))
            best[crate] = seconds + proved_and_built(sums, crate), [crate, *names]
        return best[crate]

    return max(of(crate) for crate in needs)


def minutes_on(processors, needs, sums):
    """How long so many processors would take, each with one check at a time: of the proofs whose crates below are proved
    the one with the longest chain above it first, and wrong bodies and tests of proved crates where no proof waits."""
    above = {crate: [name for name in needs if crate in needs[name]] for crate in needs}
    rank = {}

    def of(crate):
        if crate not in rank:
            rank[crate] = proved_and_built(sums, crate) + max((of(name) for name in above[crate]), default=0.0)
        return rank[crate]

    waits = {crate: {name for name in needs[crate] if name in needs} for crate in needs}
    proofs = [(-of(crate), crate) for crate in needs if not waits[crate]]
    others, running, now = [], [], 0.0
    while proofs or others or running:
        heapq.heapify(proofs)
        while len(running) < processors and (proofs or others):
            crate = heapq.heappop(proofs)[1] if proofs else None
            seconds = proved_and_built(sums, crate) if crate else others.pop()
            heapq.heappush(running, (now + seconds, crate or ""))
        now, crate = heapq.heappop(running)
        if crate:
            others += [sums[crate, kind] for kind in ("tests", "edits")]
            for name in above[crate]:
                waits[name].discard(crate)
                if not waits[name]:
                    proofs.append((-of(name), name))
    return now / 60


def page(status, walls, sums, log):
    needs = copies.stands_on()
    with open(log) as file:
        lines = file.read().rstrip("\n").split("\n")
    commit = subprocess.run(["git", "rev-parse", "--short", "HEAD"], cwd=ROOT, capture_output=True, text=True).stdout
    version = subprocess.run(["rt", "version"], capture_output=True, text=True).stdout.strip()
    total = {kind: sum(sums[crate, kind] for crate in needs) for kind in KINDS}
    shown = [kind for kind in KINDS if total[kind]]
    seconds, names = longest_chain(needs, sums)
    edits = collections.Counter(re.findall(r"^rt: must-fail (\w+)/", "\n".join(lines), re.MULTILINE))
    wall = sum(walls) / 60
    apart = f" (two runs, one after the other: {' and '.join(f'{one / 60:.0f}' for one in walls)})" if len(walls) > 1 else ""
    rows = [
        "# The gate",
        "",
        "`.ci/run` is the gate: `rt ci` at the top of the repository. "
        "It proves every function of every crate from nothing, tries each wrong body in `crates/*/must-fail`, which the "
        "prover has to refuse, and runs each program as two compilers build it. Then come the tests of `tests/run quick`, over the "
        "programs that it built and one of questions that has no proof; they get what is left of 175 minutes, and 15 at most. "
        "`tests/tools/gate.py` runs the gate and writes this page.",
        "",
        f"{datetime.date.today()}, commit {commit.strip()}, {version}, {len(os.sched_getaffinity(0))} processors: "
        f"**{wall:.0f} minutes**{apart}, {sum(total.values()):,.0f} processor seconds in all, status {status}, "
        f"last line `{lines[-1]}`.",
        "",
        ", ".join(f"{KINDS[kind]} {total[kind]:,.0f}" for kind in shown) + ". "
        f"Two processors of this kind would take {minutes_on(2, needs, sums):.0f} minutes for these seconds. "
        f"The longest chain of proofs, {seconds:,.0f} seconds: {', '.join(f'`{name}`' for name in reversed(names))}.",
        "",
        f"| Member | {' | '.join(f'{KINDS[kind]}, s' for kind in shown)} | Wrong bodies | Proof and compilers of each crate, s |",
        f"|---|{'---:|' * (len(shown) + 1)}---|",
    ]
    for member, crates in members().items():
        parts = " | ".join(f"{sum(sums[crate, kind] for crate in crates):,.0f}" for kind in shown)
        each = ", ".join(f"`{crate}` {proved_and_built(sums, crate):.0f}" for crate in crates)
        rows.append(f"| {member} | {parts} | {sum(edits[crate] for crate in crates)} | {each} |")
    return "\n".join(rows) + "\n"


def members():
    """The crates of each member, by the headings of crates.txt."""
    found = {}
    with open(os.path.join(ROOT, "crates.txt")) as file:
        for line in file:
            if ":" not in line and line.startswith("# "):
                member = line.removeprefix("# ").strip()
            elif ":" in line and not line.startswith("#"):
                found.setdefault(member, []).append(line.split(":")[0].split()[0])
    return found


def remember():
    """Puts the figures that the page has so far to the end of the history."""
    with open(PAGE) as file:
        figures = file.read().partition("\n## ")[0].split("\n\n")[2:]
    with open(HISTORY, "a") as file:
        file.write(f"\n## The run of {figures[0].partition(',')[0]}\n\n" + "\n\n".join(figures).rstrip() + "\n")


def sections():
    """What stands in the page from its first section on."""
    with open(PAGE) as file:
        _, mark, kept = file.read().partition("\n## ")
    return mark + kept


def main():
    parser = argparse.ArgumentParser(description="Runs the gate and writes docs/GATE.md.")
    parser.add_argument("--log", help="the file for what the gate prints")
    parser.add_argument("--first", nargs="+", default=[], metavar="NAME", help="prove these crates and those below them by a run before")
    given = parser.parse_args()
    log = os.path.abspath(given.log) if given.log else os.path.join(tempfile.mkdtemp(), "gate.log")
    open(log, "w").close()
    walls, sums = [], collections.Counter()
    for command in ([["rt", "ci", *given.first]] if given.first else []) + [["bash", ".ci/run"]]:
        status, wall, taken = watched(command, log)
        walls.append(wall)
        sums += taken
    text = page(status, walls, sums, log) + sections()
    remember()
    with open(PAGE, "w") as file:
        file.write(text)
    print(f"status {status}, {sum(walls):.0f} s; {log}")
    sys.exit(status)


if __name__ == "__main__":
    main()
