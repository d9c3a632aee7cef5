"""Runs the steps of validate.py, one after another: each within its limits of time and memory, and ended by a signal.

A step is a program, or a function that runs in a process of its own. What it takes is noted: seconds, processor seconds,
and the most memory that it and what it started had at a time, files that are mapped apart. A step that takes more than its
limit is ended: first told so, and killed where it goes on. The limit of memory is looked at many times a second, so a step
may go past it for a moment.
"""

import collections
import contextlib
import json
import os
import resource
import select
import signal
import subprocess
import sys
import tempfile
import time

from statuses import CHECK, FAULT, MEMORY, Failed, Stopped, failure_of

ENDING = (signal.SIGTERM, signal.SIGINT, signal.SIGHUP)
# So long a step that was told to end may take for it, in seconds.
GRACE = 5
# How often a step is looked at: so many seconds after its start, and later.
FIRST_LOOK, LAST_LOOK = 0.002, 0.05
# So many octets are kept of what a step said last, beside its lines in the log; so many are read once it has ended.
MOST_SAID, MOST_DRAINED = 1 << 16, 1 << 20
MIB = 1 << 20
TIME, SPACE = "time", "memory"

# How long a step may take, in seconds, and how many octets of memory; None where there is no limit.
Limits = collections.namedtuple("Limits", "seconds octets")


class Ended(collections.namedtuple("Ended", "status over limits said")):
    """How a step ended: its exit status, negative for a signal; the limit that it went past, or None; and what it said."""

    def why(self, what):
        """In words."""
        if self.over == TIME:
            return f"{what} hadn't ended after {self.limits.seconds:.0f} seconds"
        if self.over == SPACE:
            return f"{what} took more than {self.limits.octets // MIB:,} MiB of memory"
        if self.status < 0:
            short = ", as it is where memory is short" if self.status == -signal.SIGKILL else ""
            return f"{what} was ended by signal {-self.status}{short}"
        return f"{what} ended with status {self.status}"

    def lacks_memory(self):
        """Whether it ended since memory was short: by its limit, or by the kernel."""
        return self.over == SPACE or self.over is None and self.status == -signal.SIGKILL


class Relay:
    """What a step says on standard error, which goes into the log line by line."""

    def __init__(self, log, who, level):
        self.log, self.who, self.level = log, who, level
        self.reader, self.writer = os.pipe()
        os.set_blocking(self.reader, False)
        self.said, self.part, self.is_over = b"", b"", False

    def started(self):
        """To be called once the step has its end of the pipe."""
        os.close(self.writer)

    def wait(self, seconds):
        """Waits for what is said, at most so long."""
        if self.is_over:
            time.sleep(seconds)
        elif select.select([self.reader], [], [], seconds)[0]:
            self.read()

    def read(self):
        """Takes what has been said: how many octets."""
        try:
            octets = os.read(self.reader, MOST_SAID)
        except BlockingIOError:
            return 0
        self.is_over = not octets
        self.said = (self.said + octets)[-MOST_SAID:]
        *lines, self.part = (self.part + octets).split(b"\n")
        for line in lines:
            self.log.relay(line, self.who, self.level)
        if len(self.part) > MOST_SAID:
            self.log.relay(self.part, self.who, self.level)
            self.part = b""
        return len(octets)

    def close(self):
        left = MOST_DRAINED
        while left > 0 and (count := self.read()):
            left -= count
        if self.part:
            self.log.relay(self.part, self.who, self.level)
        os.close(self.reader)


class Steps:
    """Runs one step after another."""

    def __init__(self, work, log):
        self.work, self.log, self.child, self.signal = work, log, None, None
        self.seconds, self.processor_seconds, self.memory = {}, {}, {}
        for number in ENDING:
            signal.signal(number, self.stop)

    def stop(self, number, _):
        self.signal = self.signal or number
        if self.child is not None:
            with contextlib.suppress(ProcessLookupError):
                os.kill(self.child, signal.SIGTERM)

    def go_on(self):
        if self.signal is not None:
            raise Stopped

    def run(self, name, words, limits, level="info", **streams):
        """Runs a program, which holds the work folder's lock for as long as it lives: how it ended."""
        self.go_on()
        who = os.path.basename(words[1] if words[0] == sys.executable else words[0])
        asked = filter(str.isalpha, words[1:] if words[0] != sys.executable else ())
        self.log.tell(" ".join((f"{name}: {who}", *asked)))
        relay = Relay(self.log, who, level)
        streams = {"stdin": subprocess.DEVNULL, "stderr": relay.writer, **streams}
        try:
            program = subprocess.Popen(words, pass_fds=(self.work.lock,), **streams)
        except OSError as why:
            relay.started()
            relay.close()
            raise Failed(FAULT, f"{words[0]} doesn't start: {why.strerror}") from None
        relay.started()
        ended = self.waited(name, program.pid, limits, relay)
        # (so that nothing waits for it again)
        program.returncode = ended.status
        self.go_on()
        return ended

    def call(self, name, limits, function, *words):
        """Calls a function in a process of its own: what it returns, as JSON has it. Raises Failed where it does, or where it
        goes past its limits."""
        self.go_on()
        with tempfile.TemporaryFile(dir=self.work.folder) as file:
            signal.pthread_sigmask(signal.SIG_BLOCK, ENDING)
            child = os.fork()
            if child == 0:
                called(file, function, words)
            signal.pthread_sigmask(signal.SIG_UNBLOCK, ENDING)
            ended = self.waited(name, child, limits, None)
            self.go_on()
            if ended.lacks_memory():
                raise Failed(MEMORY, ended.why(f"the step {name}"))
            if ended.over or ended.status:
                raise Failed(CHECK, ended.why(f"the step {name}"))
            file.seek(0)
            told = json.load(file)
        if "status" in told:
            raise Failed(told["status"], told["why"])
        return told["found"]

    def waited(self, name, pid, limits, relay):
        """Waits until a process has ended, and notes what it took."""
        began, self.child = time.monotonic(), pid
        if self.signal is not None:
            os.kill(pid, signal.SIGTERM)
        watch = Watch(pid, limits)
        delay = FIRST_LOOK
        while not (found := os.wait4(pid, os.WNOHANG))[0]:
            relay.wait(delay) if relay else time.sleep(delay)
            delay = min(2 * delay, LAST_LOOK)
            watch.look()
        self.child = None
        if relay:
            relay.close()
        _, status, used = found
        # (what the system tells is no less than what this process itself has had, which it was at first)
        most = used.ru_maxrss if used.ru_maxrss > resource.getrusage(resource.RUSAGE_SELF).ru_maxrss else 0
        self.note(name, time.monotonic() - began, used.ru_utime + used.ru_stime, max(watch.most, most << 10))
        return Ended(os.waitstatus_to_exitcode(status), watch.over, limits, relay.said if relay else b"")

    def note(self, name, seconds, processor, octets):
        """Adds to what a step took, which may run again."""
        self.seconds[name] = round(self.seconds.get(name, 0) + seconds, 3)
        self.processor_seconds[name] = round(self.processor_seconds.get(name, 0) + processor, 3)
        self.memory[name] = max(self.memory.get(name, 0), octets)


class Watch:
    """Looks whether a process keeps its limits, and ends it where it doesn't."""

    def __init__(self, pid, limits):
        self.pid, self.limits, self.began = pid, limits, time.monotonic()
        self.most, self.over, self.told_at, self.is_killed = 0, None, None, False

    def look(self):
        now = time.monotonic()
        if self.over is None:
            self.most = max(self.most, memory_of(self.pid))
            if self.limits.seconds and now - self.began > self.limits.seconds:
                self.over = TIME
            elif self.limits.octets and self.most > self.limits.octets:
                self.over = SPACE
            if self.over:
                # (memory may be short for the whole machine)
                self.end(signal.SIGKILL if self.over == SPACE else signal.SIGTERM)
                self.told_at = now
        elif now - self.told_at > GRACE and not self.is_killed:
            self.end(signal.SIGKILL)
            self.is_killed = True

    def end(self, number):
        """Ends the process, and those that it started where it is killed."""
        below = list(processes(self.pid)) if number == signal.SIGKILL else [self.pid]
        for pid in below:
            with contextlib.suppress(ProcessLookupError, PermissionError):
                os.kill(pid, number)


def processes(pid):
    """A process and those that it started, and so on."""
    yield pid
    try:
        with open(f"/proc/{pid}/task/{pid}/children") as file:
            children = file.read().split()
    except OSError:
        return
    for child in children:
        yield from processes(int(child))


def memory_of(pid):
    """How many octets a process and those that it started have in memory or swapped out; files that are mapped apart."""
    return sum(map(octets_of, processes(pid)))


def octets_of(pid):
    found = 0
    with contextlib.suppress(OSError, ValueError), open(f"/proc/{pid}/status") as file:
        for line in file:
            if line.startswith(("RssAnon:", "RssShmem:", "VmSwap:")):
                found += int(line.split()[1]) << 10
    return found


def called(file, function, words):
    """Ends this process, once the function's answer stands in the file."""
    status = 1
    try:
        for number in ENDING:
            signal.signal(number, signal.SIG_DFL)
        signal.pthread_sigmask(signal.SIG_UNBLOCK, ENDING)
        try:
            told = {"found": function(*words)}
        except Exception as fault:
            failed = failure_of(fault)
            told = {"status": failed.status, "why": str(failed)}
        file.write(json.dumps(told).encode())
        file.flush()
        status = 0
    finally:
        os._exit(status)
