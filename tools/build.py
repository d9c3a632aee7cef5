#!/usr/bin/env python3
"""Builds the programs that the tools here run, `bin/rpki_check` and `bin/rpki_ask` at the top of a clone.

    build.py [--proved]

They are built without a proof, as `tests/run` builds them (tests/lib/programs.py): from the same sources, by the same compiler,
in some three minutes. What was built of these sources is kept, and isn't built again. Where a program that is proved is at hand
(`rt run` and `rt ci` leave it at `crates/NAME/out/NAME`) and no older than its sources, it is taken. --proved proves first what
isn't, which takes hours. `bin/built.json` says of each program whether it is proved, and the sum of the sources that it is made
of. A program is replaced in one rename, so one that runs meanwhile is left alone.

Wanted are the toolchain (`rt`) and a C compiler (`cc`, or $CC); without the latter what is built has the checks of
AddressSanitizer and is several times as slow, which is told.

Exit status: 0; 1 where something is missing or a program isn't built; 2 for other arguments; 75 where another run builds.
SIGTERM, SIGINT and SIGHUP end what runs, and leave what stood in `bin`.
"""

import argparse
import concurrent.futures
import contextlib
import fcntl
import json
import os
import shutil
import signal
import subprocess
import sys
import time

sys.dont_write_bytecode = True

TOP = os.path.dirname(os.path.dirname(os.path.abspath(__file__)))
LIBRARY = os.path.join(TOP, "tests", "lib")
# The programs, each with words by which `rt run` runs it over the example bundle, and it ends with 0.
NAMES = {"rpki_check": ["check"], "rpki_ask": ["refusals"]}
EXAMPLE = os.path.join(TOP, "examples", "small.bundle")
FAULT, BUSY = 1, 75


class Unbuilt(Exception):
    """Why a program isn't there."""


class Ending:
    """Whether a signal has come that ends the run; what was started for it is ended, too."""

    def __init__(self):
        self.number, self.started = None, set()
        for number in (signal.SIGTERM, signal.SIGINT, signal.SIGHUP):
            signal.signal(number, self.end)

    def end(self, number, _):
        self.number = number
        for run in list(self.started):
            with contextlib.suppress(ProcessLookupError):
                run.terminate()

    def is_over(self):
        return self.number is not None


def tell(text):
    print(f"build.py: {text}", file=sys.stderr, flush=True)


def library():
    """The module that builds, of the tests."""
    if not os.path.isfile(os.path.join(LIBRARY, "programs.py")):
        raise Unbuilt("this is no clone: tests/lib/programs.py isn't there")
    if shutil.which("rt") is None:
        raise Unbuilt("the toolchain's `rt` isn't found; README says which one it is")
    sys.path.insert(0, LIBRARY)
    import programs

    return programs


def prove(programs, name, ending):
    """Proves, builds and runs a program, which `rt run` leaves in its crate: its path."""
    with open(EXAMPLE, "rb") as example:
        how = {"cwd": os.path.join(TOP, "crates", name), "stdin": example, "stdout": subprocess.DEVNULL}
        run = subprocess.Popen(["rt", "run", "--", *NAMES[name]], **how)
    ending.started.add(run)
    status = run.wait()
    ending.started.discard(run)
    path = programs.proved(name)
    if status or path is None:
        raise Unbuilt(f"{name} isn't proved: `rt run` in crates/{name} ended with status {status}")
    return path


def built(programs, name, is_to_be_proved, ending):
    """The path of a program, and whether it is proved."""
    path = programs.proved(name)
    if path and programs.is_newer(path, name):
        return path, True
    if is_to_be_proved:
        tell(f"{name}: is proved, which takes hours")
        return prove(programs, name, ending), True
    path, _, is_there = programs.kept(name)
    if is_there:
        return path, False
    tell(f"{name}: is built without a proof, which takes some three minutes")
    try:
        return programs.unproved(name, ending.is_over), False
    except (RuntimeError, subprocess.SubprocessError) as why:
        raise Unbuilt(f"{name} isn't built: {why}") from None


def put(path, name, folder):
    """Puts a program in its place in one rename."""
    made = os.path.join(folder, f".{name}.new")
    shutil.copyfile(path, made)
    os.chmod(made, 0o755)
    os.replace(made, os.path.join(folder, name))


def record(folder, rows):
    """Says in `built.json` what is there."""
    made = os.path.join(folder, ".built.json.new")
    with open(made, "w") as file:
        json.dump(rows, file, indent=2)
        file.write("\n")
    os.replace(made, os.path.join(folder, "built.json"))


@contextlib.contextmanager
def locked(folder):
    """The folder of programs while this run alone writes there."""
    os.makedirs(folder, exist_ok=True)
    handle = os.open(folder, os.O_RDONLY | os.O_DIRECTORY)
    try:
        fcntl.flock(handle, fcntl.LOCK_EX | fcntl.LOCK_NB)
        yield
    finally:
        os.close(handle)


def build(is_to_be_proved, ending, folder):
    """Builds both programs side by side, and puts them in place."""
    programs = library()
    began = time.monotonic()
    with concurrent.futures.ThreadPoolExecutor(len(NAMES)) as pool:
        runs = {name: pool.submit(built, programs, name, is_to_be_proved, ending) for name in NAMES}
    found = {name: run.result() for name, run in runs.items()}
    if ending.is_over():
        return
    rows = {name: {"proved": proved, "sum": programs.sum_of(name)} for name, (_, proved) in found.items()}
    for name, (path, proved) in found.items():
        put(path, name, folder)
        slow = "" if proved or path.parent == programs.PLAIN else ", with the checks of AddressSanitizer, since there is no C compiler"
        tell(f"bin/{name}: {'proved' if proved else 'not proved'}{slow}")
    record(folder, rows)
    tell(f"built in {time.monotonic() - began:.0f} s")


def main():
    parser = argparse.ArgumentParser(description=__doc__, formatter_class=argparse.RawDescriptionHelpFormatter)
    parser.add_argument("--proved", action="store_true", help="prove both programs first, which takes hours")
    given = parser.parse_args()
    ending, folder = Ending(), os.path.join(TOP, "bin")
    try:
        with locked(folder):
            build(given.proved, ending, folder)
    except BlockingIOError:
        tell("another run is building")
        return BUSY
    except (Unbuilt, OSError) as why:
        if not ending.is_over():
            tell(why)
            return FAULT
    if ending.is_over():
        tell(f"ended by signal {ending.number}")
        signal.signal(ending.number, signal.SIG_DFL)
        os.kill(os.getpid(), ending.number)
    return 0


if __name__ == "__main__":
    sys.exit(main())
