#!/usr/bin/env python3
"""Shows what the built program does with faults from outside: readers and writers that fail, octets that are no
bundle, arguments that ask for nothing.

    faults.py PROGRAM       (PROGRAM is crates/rpki_check/out/rpki_check)

Each fault must be told on standard error, with status 1 and nothing on standard output but, where a writer
failed, a front of the right text. Prints a line for each test that failed, and `N passed, M failed`; exits with 1
where one failed.
"""

import os
import resource
import subprocess
import sys
import tempfile
import time

sys.dont_write_bytecode = True
sys.path.insert(0, os.path.join(os.path.dirname(os.path.abspath(__file__)), os.pardir, "lib"))

from outcomes import NOT_A_BUNDLE, OUT_OF_MEMORY, SECONDS, TOP  # noqa: E402, before make_bundle
from make_bundle import bundle, locator, made_lines, made_locators, object_at, value, verdict  # noqa: E402

READ_FAULT = (1, b"", b"read fault\n")
WRITE_FAULT = (1, b"", b"write fault\n")
USAGE = (1, b"", b"usage: rpki_check check | rpki_check bundle FOLDER\n")

EMPTY = bundle()
ONE = bundle([locator(b"x")])
ONE_TEXT = b"refused x tal\n"
FULL = bundle([locator(b"a"), locator(b"b")], [object_at(b"rsync://a/m/x", b"octets")], [verdict(*[bytes(32)] * 3)])


def run(program, arguments=("check",), **how):
    """One run's status and what it printed on both streams (nothing for a stream that goes elsewhere)."""
    how = {"stdout": subprocess.PIPE, "stderr": subprocess.PIPE, **how}
    done = subprocess.run([program, *arguments], timeout=SECONDS, **how)
    return done.returncode, done.stdout or b"", done.stderr or b""


def run_in_shell(program, redirections, octets):
    """The outcome of `check` with these redirections."""
    return run("sh", ["-c", f'"$0" check {redirections}', program], input=octets)


def reads(program):
    """Standard inputs that can't be read, from the start on or later."""
    yield "standard input closed", run_in_shell(program, "<&-", b""), READ_FAULT
    yield "a folder as standard input", run_in_shell(program, "</", b""), READ_FAULT
    yield "standard input for writing alone", run_in_shell(program, "0>/dev/null", b""), READ_FAULT
    yield "the second read fails", read_fails_later(program), READ_FAULT
    yield "one octet a time", one_octet_a_time(program, ONE), (0, ONE_TEXT, b"")
    yield "one octet a time, the last missing", one_octet_a_time(program, ONE[:-1]), NOT_A_BUNDLE
    yield "an input without end, in 256 MiB", run_in_little_memory(program), OUT_OF_MEMORY


def read_fails_later(program):
    """A pipe that gives a whole bundle and then, though it isn't at its end, the error that it would block."""
    source, sink = os.pipe()
    os.write(sink, ONE)
    os.set_blocking(source, False)
    outcome = run(program, stdin=source)
    os.close(source)
    os.close(sink)
    return outcome


def one_octet_a_time(program, octets):
    """A pipe into which each octet comes a while after the one before."""
    streams = {name: subprocess.PIPE for name in ("stdin", "stdout", "stderr")}
    with subprocess.Popen([program, "check"], bufsize=0, **streams) as child:
        try:
            for octet in octets:
                child.stdin.write(bytes([octet]))
                time.sleep(0.002)
        except BrokenPipeError:
            pass  # it reads no more, and what it prints says the rest
        output, faults = child.communicate(timeout=SECONDS)
    return child.returncode, output, faults


def run_in_little_memory(program):
    """The zeros of a device, with an address space of 256 MiB."""

    def limit():
        resource.setrlimit(resource.RLIMIT_AS, (2**28, 2**28))

    with open("/dev/zero", "rb") as zeros:
        return run(program, stdin=zeros, preexec_fn=limit)


def writes(program):
    """Standard outputs that take nothing, or not all; and a standard error that takes nothing."""
    yield "standard output closed", run_in_shell(program, ">&-", ONE), WRITE_FAULT
    yield "a full device", run_in_shell(program, ">/dev/full", ONE), WRITE_FAULT
    yield "standard output for reading alone", run_in_shell(program, "1</dev/null", ONE), WRITE_FAULT
    yield "a pipe that nobody reads", nobody_reads(program), WRITE_FAULT
    yield "a file that takes 5 octets", five_octets(program), (1, b"refus", b"write fault\n")
    yield "a pipe that is full in between", full_pipe(program), (1, b"a front", b"write fault\n")
    yield "nothing to write, standard output closed", run_in_shell(program, ">&-", EMPTY), (0, b"", b"")
    yield "nothing to write, a full device", run_in_shell(program, ">/dev/full", EMPTY), (0, b"", b"")
    yield "standard error closed", run_in_shell(program, "2>&-", b""), (1, b"", b"")
    yield "a full device for faults", run_in_shell(program, "2>/dev/full", b""), (1, b"", b"")


def nobody_reads(program):
    """A pipe whose other end is closed."""
    source, sink = os.pipe()
    os.close(source)
    outcome = run(program, input=ONE, stdout=sink)
    os.close(sink)
    return outcome


def five_octets(program):
    """A file that may grow to 5 octets; the signal for going past them is ignored, as Python ignores it."""

    def limit():
        resource.setrlimit(resource.RLIMIT_FSIZE, (5, 5))

    with tempfile.TemporaryFile() as file:
        status, _, faults = run(program, input=ONE, stdout=file, preexec_fn=limit, restore_signals=False)
        file.seek(0)
        return status, file.read(), faults


def full_pipe(program):
    """A pipe that takes what it has room for, and then says that it would block."""
    source, sink = os.pipe()
    os.set_blocking(sink, False)
    count = 10_000
    status, _, faults = run(program, input=bundle(made_locators(count)), stdout=sink)
    os.close(sink)
    with open(source, "rb") as pipe:
        taken = pipe.read()
    is_front = taken != b"" and b"".join(made_lines(count)).startswith(taken)
    return status, b"a front" if is_front else taken, faults


def no_bundles(program):
    """Octets that are no bundle: nothing is written of any."""
    nested = b""
    for _ in range(10_000):
        nested = value(0x30, nested)
    cases = {
        "no octets": b"",
        "an octet behind the bundle": FULL + b"\0",
        "the bundle twice": FULL * 2,
        "a great length without octets": bytes.fromhex("3084FFFFFFFF"),
        "a great length inside": EMPTY[:-2] + bytes.fromhex("3084FFFFFFFF"),
        "a length without end": bytes.fromhex("3080"),
        "ten thousand nested values": nested,
        "a text": b"not a bundle\n",
        **{f"cut to {size} octets": FULL[:size] for size in range(1, len(FULL))},
    }
    for name, octets in cases.items():
        yield name, run(program, input=octets), NOT_A_BUNDLE


def usages(program):
    """Arguments that ask for nothing that the program does."""
    lists = (
        [],
        [""],
        ["chec"],
        ["CHECK"],
        ["check "],
        ["--help"],
        ["check", "x"],
        ["check", ""],
        ["check", "check"],
        ["bundle"],
        ["bundle", "a", "b"],
        [b"\xff"],
        [b"check\xff"],
        ["check", b"\xff"],
        [b"\xff", "check"],
    )
    for arguments in lists:
        yield f"arguments {arguments}", run(program, arguments, input=ONE), USAGE


def example(name):
    with open(os.path.join(TOP, "examples", name), "rb") as file:
        return file.read()


def rights(program):
    """What is no fault."""
    yield "a whole bundle", run(program, input=FULL), (0, b"refused a tal\nrefused b tal\n", b"")
    yield "a repository", run(program, input=example("small.bundle")), (0, example("small.lines"), b"")
    count = 10_000
    text = b"".join(made_lines(count))
    yield "more text than a pipe holds", run(program, input=bundle(made_locators(count))), (0, text, b"")


def main():
    if len(sys.argv) != 2:
        sys.exit("usage: faults.py PROGRAM")
    program = os.path.abspath(sys.argv[1])
    passed = failed = 0
    for group in (rights, reads, writes, no_bundles, usages):
        for name, outcome, wanted in group(program):
            if outcome == wanted:
                passed += 1
            else:
                failed += 1
                print(f"{name}: {outcome}, and {wanted} is right")
    print(f"{passed} passed, {failed} failed")
    sys.exit(1 if failed else 0)


if __name__ == "__main__":
    main()
