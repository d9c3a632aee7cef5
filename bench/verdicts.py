#!/usr/bin/env python3
"""Shows the processor time and the memory that tools/verdicts.py takes, beside the signature arithmetic itself.

    verdicts.py [FOLDER] [--copies N ..] [--runs N] [--disk FOLDER]

A repository of some 10,000 objects (102 authorities, each with 90 ROAs, 5 ASPAs, a revocation list and a manifest) is
made by repository.py in FOLDER, with real RSA signatures, which takes minutes, or taken from there where an earlier run
left it. A cache has so many copies of it, each at a host of its own (by default one, and ten: 100,000 objects), and each
object of each copy is read and checked. Each cache is read by one process, by as many as there are processors, and once
more with the verdicts of the run before (--known). Each folder has to have all objects and all signatures good.

Time is the processor time of all processes, the kernel's for them included, and the least of the runs counts. From it is
taken what the signatures alone take: how many were computed, by the time of one that `openssl speed rsa2048` tells,
measured in turns with the runs. Memory is the peak of the process that has the largest, and of all together at most,
what they share counted once. OUT is written to /dev/shm, so that the file system's own work, which differs widely, is
told apart: with --disk FOLDER it is written there. Target: at most 0.25 ms an object beside the signatures.
"""

import argparse
import json
import os
import re
import shutil
import subprocess
import sys
import tempfile
import time

HERE = os.path.dirname(os.path.abspath(__file__))
TOOL = os.path.join(HERE, os.pardir, "tools", "verdicts.py")
MAKER = os.path.join(HERE, "repository.py")
COPIES = (1, 10)
AUTHORITIES, ORIGINS, CUSTOMERS = 102, 90, 5
OBJECTS = 3 + AUTHORITIES * (3 + ORIGINS + CUSTOMERS)
SIGNATURES = 4 * (AUTHORITIES + 1) + 2 * AUTHORITIES * (ORIGINS + CUSTOMERS)
HOST = "rpki.example"
MOMENT = "20250101000000Z"
RUNS = 3
MOST_SECONDS = 0.00025


def make(folder):
    """The folder of the repository, made where it isn't there."""
    path = os.path.join(folder, "repository")
    if not os.path.isdir(path):
        counts = [f"--authorities={AUTHORITIES}", f"--origins={ORIGINS}", f"--customers={CUSTOMERS}"]
        subprocess.run([sys.executable, MAKER, path + ".new", *counts], check=True, stderr=subprocess.DEVNULL)
        os.rename(path + ".new", path)
    return path


def copied(repository, folder, copies):
    """A cache with so many copies of the repository's objects, by hard links, each below a host of its own."""
    cache = os.path.join(folder, f"cache-{copies}")
    if not os.path.isdir(cache):
        shutil.copytree(os.path.join(repository, "tals"), os.path.join(cache, "tals"))
        for number in range(copies):
            host = f"{number}.{HOST}" if number else HOST
            source = os.path.join(repository, "rsync", HOST)
            shutil.copytree(source, os.path.join(cache, "rsync", host), copy_function=os.link)
    return cache


def signature_seconds():
    """How long OpenSSL takes to verify one signature of 2048 bits."""
    words = ["openssl", "speed", "-seconds", "1", "rsa2048"]
    text = subprocess.run(words, capture_output=True, text=True, check=True).stdout
    return float(re.search(r"rsa +2048 bits +[0-9.]+s +([0-9.]+)s", text)[1])


def peak_of_all(process):
    """Waits for the process's end: its usage, and the most resident memory of it and its helpers at one moment."""
    most = 0
    while True:
        ended, status, usage = os.wait4(process.pid, os.WNOHANG)
        if ended:
            process.returncode = os.waitstatus_to_exitcode(status)
            return usage, most
        most = max(most, sum(private(pid) for pid in [process.pid, *children(process.pid)]))
        time.sleep(0.1)


def children(pid):
    try:
        with open(f"/proc/{pid}/task/{pid}/children") as file:
            return [int(word) for word in file.read().split()]
    except OSError:
        return []


def private(pid):
    """The octets of a process's memory, what it shares with others counted by its share."""
    try:
        with open(f"/proc/{pid}/smaps_rollup") as file:
            return 1024 * int(re.search(r"^Pss: +([0-9]+)", file.read(), re.M)[1])
    except (OSError, TypeError):
        return 0


def run(cache, out, *others):
    """One run: seconds of processor time, of the clock, the largest peak, that of all together, and the summary."""
    told = out + ".json"
    words = [TOOL, cache, out, "--tals", os.path.join(cache, "tals"), "--moment", MOMENT, "--summary", told]
    start = time.monotonic()
    process = subprocess.Popen([sys.executable, *words, "--replace", *others], stderr=subprocess.DEVNULL)
    usage, peak = peak_of_all(process)
    seconds = time.monotonic() - start
    if process.returncode:
        sys.exit(f"verdicts.py ended with {process.returncode}")
    with open(told) as file:
        return usage.ru_utime + usage.ru_stime, seconds, usage.ru_maxrss * 1024, peak, json.load(file)


def is_right(summary, copies):
    """Whether all objects and signatures were found, and are good."""
    found = summary["signatures"]
    signatures = copies * SIGNATURES
    return (summary["objects"], found["found"], found["good"]) == (copies * OBJECTS, signatures, signatures)


def row(cache, copies, runs, room, *others):
    """The best of some runs as cells, and whether it misses its target or is wrong."""
    best = None
    for _ in range(runs):
        each = signature_seconds()
        processor, clock, largest, peak, summary = run(cache, os.path.join(room, "out"), *others)
        count = summary["objects"]
        computed = summary["signatures"]["computed"]
        beside = (processor - computed * each) / count
        if not is_right(summary, copies):
            sys.exit(f"wrong: {summary}")
        found = (beside, processor, clock, largest, peak, each, computed, count, summary["jobs"])
        best = min(best or found, found)
    beside, processor, clock, largest, peak, each, computed, count, jobs = best
    cells = [f"{count:,}", " ".join(word for word in others if word.startswith("--known")) or "none", str(jobs)]
    cells += [f"{processor:.2f}", f"{computed:,}", f"{each * 1e6:.0f}", f"{beside * 1e3:.3f}", f"{clock:.1f}"]
    cells += [f"{largest / 1e6:.0f}", f"{peak / 1e6:.0f}"]
    return cells, beside > MOST_SECONDS


def main():
    parser = argparse.ArgumentParser(description=__doc__, formatter_class=argparse.RawDescriptionHelpFormatter)
    parser.add_argument("folder", nargs="?", help="where the repository lies or is made (default: a temporary folder)")
    parser.add_argument("--copies", type=int, nargs="*", default=COPIES)
    parser.add_argument("--runs", type=int, default=RUNS)
    parser.add_argument("--disk", metavar="FOLDER", default="/dev/shm", help="where OUT is written")
    given = parser.parse_args()
    heads = "objects|earlier verdicts|processes|processor s|signatures computed|us a signature|ms an object beside"
    print(f"| {heads.replace('|', ' | ')} | clock s | largest peak MB | all MB |\n|{'---:|' * 10}", flush=True)
    missed = 0
    with tempfile.TemporaryDirectory() as folder, tempfile.TemporaryDirectory(dir=given.disk) as room:
        folder = given.folder or folder
        repository = make(folder)
        for copies in given.copies:
            cache = copied(repository, folder, copies)
            for others in (["--jobs", "1"], [], ["--jobs", "1", "--known", os.path.join(room, "out")]):
                cells, is_missed = row(cache, copies, given.runs, room, *others)
                missed += is_missed
                print(f"| {' | '.join(cells)} |", flush=True)
            shutil.rmtree(os.path.join(room, "out"))
    print(f"{missed} targets missed" if missed else "all targets met")
    return 1 if missed else 0


if __name__ == "__main__":
    sys.exit(main())
