"""The folder that a run writes: made beside its place, and put there whole at the end.

Everything is written below WORK, the folder `.NAME.verdicts` beside OUT. At the end WORK/out and OUT change places in one
step (renameat2 with RENAME_EXCHANGE), so that whoever looks finds the old folder or the new one, and a run that is killed
leaves what was there. Where the file system has no such step OUT is renamed to WORK/old first; a run that finds WORK/old
and no OUT puts it back. WORK is locked while a run has it; without a lock it is a killed run's, and removed.
"""

import ctypes
import errno
import fcntl
import os
import shutil
import signal
import stat
import time

# What a folder of `rpki_check bundle` holds; one that holds anything else isn't replaced.
PARTS = {"moment", "depth", "relaxed", "tals", "rsync", "https", "verdicts"}
# So long another run's helpers may take to end after it was killed.
WAIT_SECONDS = 2.0
FOLDER = os.O_RDONLY | os.O_DIRECTORY | os.O_NOFOLLOW | os.O_CLOEXEC
# Signals that end a run wait while it puts its folder in place and removes what is left.
ENDING = (signal.SIGTERM, signal.SIGINT, signal.SIGHUP)
# As the kernel's headers have them.
AT_FDCWD, RENAME_NOREPLACE, RENAME_EXCHANGE = -100, 1, 2
NOT_SUPPORTED = (errno.ENOSYS, errno.EINVAL, errno.ENOTSUP)


class Unsupported(Exception):
    """The system or the file system can't rename in this way."""


def rename(before, after, how):
    """One rename with a flag of renameat2, by the C library."""
    try:
        call = ctypes.CDLL(None, use_errno=True).renameat2
    except (AttributeError, OSError):
        raise Unsupported from None
    if call(AT_FDCWD, os.fsencode(before), AT_FDCWD, os.fsencode(after), how) == 0:
        return
    code = ctypes.get_errno()
    if code in NOT_SUPPORTED:
        raise Unsupported
    raise OSError(code, os.strerror(code), after)


def write(path, octets):
    """Writes a file that isn't there yet."""
    with open(path, "xb") as file:
        file.write(octets)


class Output:
    """OUT, while it is being made: `folder` is written meanwhile, `work` holds what else is needed."""

    def __init__(self, out, replace):
        self.out, self.replace = os.path.abspath(out), replace
        parent, name = os.path.split(self.out)
        if not name:
            raise OSError(f"{out} is no name of a folder to write")
        os.makedirs(parent, exist_ok=True)
        self.work = os.path.join(parent, f".{name}.verdicts")
        self.folder = os.path.join(self.work, "out")
        self.old = os.path.join(self.work, "old")
        self.lock = None

    def __enter__(self):
        self.take_work()
        try:
            self.put_back()
            self.check()
            os.mkdir(self.folder)
        except BaseException:
            self.__exit__()
            raise
        return self

    def __exit__(self, *_):
        """Removes WORK, whatever became of the run."""
        signal.pthread_sigmask(signal.SIG_BLOCK, ENDING)
        try:
            self.put_back()
            shutil.rmtree(self.work, ignore_errors=True)
        finally:
            os.close(self.lock)
            signal.pthread_sigmask(signal.SIG_UNBLOCK, ENDING)

    def take_work(self):
        """Makes WORK and locks it; a killed run's is emptied."""
        last = time.monotonic() + WAIT_SECONDS
        while True:
            try:
                os.mkdir(self.work, 0o700)
            except FileExistsError:
                pass
            if self.has_locked():
                break
            if time.monotonic() > last:
                raise OSError(f"another run is writing {self.out}")
            time.sleep(0.05)
        self.put_back()
        for name in os.listdir(self.work):
            path = os.path.join(self.work, name)
            shutil.rmtree(path) if stat.S_ISDIR(os.lstat(path).st_mode) else os.remove(path)

    def has_locked(self):
        """Whether WORK is this run's now: locked, and still the folder of that name."""
        try:
            self.lock = os.open(self.work, FOLDER)
        except FileNotFoundError:
            return False
        try:
            fcntl.flock(self.lock, fcntl.LOCK_EX | fcntl.LOCK_NB)
            if os.path.samestat(os.fstat(self.lock), os.lstat(self.work)):
                return True
        except (BlockingIOError, FileNotFoundError):
            pass
        os.close(self.lock)
        return False

    def put_back(self):
        """Puts the old folder back, where a run ended between two renames."""
        if os.path.lexists(self.old) and not os.path.lexists(self.out):
            os.rename(self.old, self.out)

    def check(self):
        """Refuses an OUT that is there, unless it may be replaced and is what an earlier run wrote."""
        if not os.path.lexists(self.out):
            return
        if not self.replace:
            raise OSError(f"{self.out} is there already")
        if not stat.S_ISDIR(os.lstat(self.out).st_mode):
            raise OSError(f"{self.out} is no folder, and isn't replaced")
        others = set(os.listdir(self.out)) - PARTS
        if others:
            raise OSError(f"{self.out} holds other things, such as {min(others)!a}, and isn't replaced")

    def skipped(self):
        """Device and number of WORK and of OUT, which are no part of a cache."""
        found = []
        for path in (self.work, self.out):
            if os.path.lexists(path):
                status = os.lstat(path)
                found.append((status.st_dev, status.st_ino))
        return found

    def put(self):
        """Puts what was written to OUT's place."""
        signal.pthread_sigmask(signal.SIG_BLOCK, ENDING)
        self.check()
        is_there = os.path.lexists(self.out)
        try:
            rename(self.folder, self.out, RENAME_EXCHANGE if is_there else RENAME_NOREPLACE)
        except Unsupported:
            if is_there:
                os.rename(self.out, self.old)
            os.rename(self.folder, self.out)
