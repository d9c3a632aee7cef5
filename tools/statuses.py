"""How runs of validate.py end: the exit statuses, and what is raised on the way to one."""

import os

import faults

WELL, FAULT, USAGE, PARTED, BUNDLE, CHECK, VERDICTS, GUARD, MEMORY, FULL, BUSY = 0, 1, 2, 3, 4, 5, 6, 7, 8, 9, 75
# The statuses with which FILE is new.
NEW = (WELL, PARTED)
# So much is written where it is looked whether there is room.
PROBE = 1 << 16


class Failed(Exception):
    """Why a run ends without a new file, and with which exit status."""

    def __init__(self, status, why):
        super().__init__(why)
        self.status = status


class Stopped(Exception):
    """A signal has ended the run."""


def failure_of(fault):
    """What an exception of Python's means for the run: a Failed."""
    if isinstance(fault, Failed):
        return fault
    told = faults.told(fault)
    return Failed(told.status, told.why)


def is_full(folder):
    """Whether a folder's disk has no room for a file."""
    path = os.path.join(folder, "room")
    try:
        with open(path, "wb") as file:
            file.write(bytes(PROBE))
            file.flush()
            os.fsync(file.fileno())
    except OSError as why:
        return why.errno in faults.FULL
    finally:
        if os.path.lexists(path):
            os.remove(path)
    return False
