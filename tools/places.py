"""Where a run of validate.py works, what it keeps, and how its files are replaced."""

import fcntl
import json
import os
import shutil
import stat

from outputs import RENAME_EXCHANGE, RENAME_NOREPLACE, Unsupported, rename
from statuses import WELL

FOLDER = os.O_RDONLY | os.O_DIRECTORY | os.O_NOFOLLOW | os.O_CLOEXEC
# What a folder of evidence holds; and one of a run that didn't go well, which holds of these what there was.
KEPT = ("bundle", "lines", "verdicts", "summary.json")
KEPT_APART = (*KEPT, "log", "report.json")


class Busy(Exception):
    """Another run has the folder."""


class Work:
    """A folder that one run at a time has: locked while it, or a program that it started, lives, and removed at the end.

    The lock is on the folder itself. What a killed run left is removed by the next that has the lock.
    """

    def __init__(self, folder):
        self.folder, self.lock = folder, None

    def path(self, *names):
        return os.path.join(self.folder, *names)

    def __enter__(self):
        while self.lock is None:
            try:
                os.mkdir(self.folder, 0o700)
            except FileExistsError:
                pass
            self.lock = self.taken()
        return self

    def taken(self):
        """The folder's descriptor with a lock; None where the folder was removed meanwhile by the run that had it."""
        try:
            lock = os.open(self.folder, FOLDER)
        except FileNotFoundError:
            return None
        try:
            fcntl.flock(lock, fcntl.LOCK_EX | fcntl.LOCK_NB)
            if os.path.samestat(os.fstat(lock), os.lstat(self.folder)):
                return lock
        except BlockingIOError:
            os.close(lock)
            raise Busy from None
        except FileNotFoundError:
            pass
        os.close(lock)
        return None

    def clear(self):
        """Removes what a killed run left."""
        for entry in os.scandir(self.folder):
            remove(entry.path)

    def __exit__(self, *_):
        shutil.rmtree(self.folder, ignore_errors=True)
        os.close(self.lock)


def remove(path):
    """Removes a file or a folder, where it is there."""
    if os.path.isdir(path) and not os.path.islink(path):
        shutil.rmtree(path)
    elif os.path.lexists(path):
        os.remove(path)


class Evidence:
    """What a run keeps, or nothing: a folder of what the file rests on, and folders beside it for runs that didn't go well,
    by their status. Each is replaced whole.

    Where a run leaves somebody out, its evidence takes the folder, since the file rests on it; what stood there of a run
    that went well goes to the folder of status 0, until the next one that goes well.
    """

    def __init__(self, folder, work):
        self.folder, self.work, self.old = folder and os.path.abspath(folder), work, work.path("old")
        if folder:
            self.put_back()
            self.check()

    def put_back(self):
        """Puts the old folder back, where a run was killed between two renames."""
        if os.path.lexists(self.old) and not os.path.lexists(self.folder):
            os.rename(self.old, self.folder)

    def check(self):
        """Refuses a folder that isn't such a one, or lies where it can't be put by a rename."""
        parent = os.path.dirname(self.folder)
        if os.stat(parent).st_dev != os.fstat(self.work.lock).st_dev:
            raise OSError(f"{self.folder} isn't in the file system of {self.work.folder}; --work may name a folder there")
        check_folder(self.folder, KEPT)

    def apart(self, status):
        """The folder of runs that end with that status."""
        return f"{self.folder}.status-{status}"

    def keep(self, summary):
        """Puts the run's files in place, once they are on the disk."""
        if not self.folder:
            return
        made = self.made("keep", summary)
        for name in KEPT[:-1]:
            os.rename(self.work.path(name), os.path.join(made, name))
        sync_all(made)
        self.check()
        if summary["status"] != WELL and self.went_well():
            self.save_well()
        put(made, self.folder, self.old)
        sync(os.path.dirname(self.folder))

    def made(self, name, summary):
        """A new folder with the summary."""
        made = self.work.path(name)
        os.mkdir(made, 0o755)
        with open(os.path.join(made, "summary.json"), "x") as file:
            json.dump(summary, file, indent=2)
            file.write("\n")
        return made

    def went_well(self):
        """Whether the folder's run went well."""
        try:
            with open(os.path.join(self.folder, "summary.json")) as file:
                return json.load(file).get("status", WELL) == WELL
        except (OSError, ValueError, AttributeError):
            return False

    def save_well(self):
        """Keeps the run that went well apart, before another takes its place."""
        made = self.work.path("well")
        os.mkdir(made, 0o755)
        for name in KEPT:
            link(os.path.join(self.folder, name), os.path.join(made, name))
        self.put_apart(made, self.apart(WELL))

    def keep_apart(self, summary, is_new):
        """Keeps what there is of a run that didn't go well; `is_new` says that it took the folder."""
        if not self.folder:
            return
        made = self.made("apart", summary)
        for name in KEPT_APART:
            # (the bundle is the one before anybody was left out)
            places = [self.work.path("whole")] if name == "bundle" else []
            places += [self.work.path(name)] + ([os.path.join(self.folder, name)] if is_new else [])
            found = next((path for path in places if os.path.isfile(path)), None)
            if found and name != "summary.json":
                link(found, os.path.join(made, name))
        self.put_apart(made, self.apart(summary["status"]))

    def put_apart(self, made, folder):
        check_folder(folder, KEPT_APART)
        put(made, folder, self.work.path("before"))
        remove(self.work.path("before"))

    def forget_well(self):
        """Removes the folder of status 0, once the run that went well last has the other one."""
        if self.folder and os.path.lexists(self.apart(WELL)):
            check_folder(self.apart(WELL), KEPT_APART)
            remove(self.apart(WELL))


def check_folder(folder, names):
    """Refuses to replace what is there and isn't a folder that holds these alone."""
    if not os.path.lexists(folder):
        return
    if not stat.S_ISDIR(os.lstat(folder).st_mode):
        raise OSError(f"{folder} is no folder, and isn't replaced")
    others = set(os.listdir(folder)) - set(names)
    if others:
        raise OSError(f"{folder} holds other things, such as {min(others)!a}, and isn't replaced")


def put(made, folder, old):
    """Puts a folder in the place of another, in one step where the system can; what was there may stay at `old`."""
    is_there = os.path.lexists(folder)
    try:
        rename(made, folder, RENAME_EXCHANGE if is_there else RENAME_NOREPLACE)
    except Unsupported:
        if is_there:
            os.rename(folder, old)
        os.rename(made, folder)
        return
    if is_there:
        remove(made)


def link(path, made):
    """A second name for a file, or a copy where there can't be one."""
    try:
        os.link(path, made)
    except OSError:
        shutil.copyfile(path, made)


def sync(path):
    """Waits until a file or folder is on the disk."""
    handle = os.open(path, os.O_RDONLY | os.O_CLOEXEC)
    try:
        os.fsync(handle)
    finally:
        os.close(handle)


def sync_all(folder):
    """Waits until a folder and its files are on the disk."""
    for name in sorted(os.listdir(folder)):
        sync(os.path.join(folder, name))
    sync(folder)


def beside(path):
    """Where a file is written before it takes its place."""
    folder, name = os.path.split(path)
    return os.path.join(folder, f".{name}.new")


def keep_rights(handle, path):
    """Gives a file the owner, as far as that may be done, and the permissions of the one in whose place it comes."""
    if not os.path.lexists(path):
        return
    old, new = os.stat(path), os.fstat(handle)
    for user, group in ((old.st_uid, -1), (-1, old.st_gid)):
        if user not in (-1, new.st_uid) or group not in (-1, new.st_gid):
            try:
                os.fchown(handle, user, group)
            except PermissionError:
                pass
    os.fchmod(handle, stat.S_IMODE(old.st_mode))


def publish(paths, write, go_on, before):
    """Replaces files, each in one rename. `write` is called with each path and the file to write; `before` when all but the
    renames is done; and `go_on` then says, by an exception, where they shan't be."""
    made = []
    try:
        for path in paths:
            remove(beside(path))
            handle = os.open(beside(path), os.O_WRONLY | os.O_CREAT | os.O_EXCL | os.O_CLOEXEC, 0o666)
            made.append(path)
            with open(handle, "wb") as file:
                keep_rights(handle, path)
                write(path, file)
                os.fsync(handle)
        before()
        go_on()
        for path in paths:
            os.replace(beside(path), path)
    except BaseException:
        for path in made:
            remove(beside(path))
        raise
    for folder in sorted({os.path.dirname(path) for path in paths}):
        sync(folder)


def write_at_once(path, pieces):
    """Writes pieces of text to a file by one beside it."""
    made = beside(path)
    try:
        with open(made, "w") as file:
            file.writelines(pieces)
        os.replace(made, path)
    except BaseException:
        if os.path.lexists(made):
            os.remove(made)
        raise
