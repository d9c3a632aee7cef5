"""What ends a run of verdicts.py before its end: exit statuses, and each fault's words."""

import errno
import os
import traceback

GOOD, FAULT, NO_LOCATOR, MEMORY, DISK, NO_LIBRARY = 0, 1, 7, 8, 9, 10
FULL = (errno.ENOSPC, errno.EDQUOT)
OUT_OF_MEMORY = "out of memory"


class Fault(Exception):
    """What ends a run: its exit status, and why."""

    def __init__(self, status, why):
        super().__init__(status, why)
        self.status, self.why = status, why


def told(why):
    """Any exception as a fault. One that nothing here foresees is told with the line that raised it."""
    if isinstance(why, Fault):
        return why
    if isinstance(why, MemoryError) or isinstance(why, OSError) and why.errno == errno.ENOMEM:
        return Fault(MEMORY, OUT_OF_MEMORY)
    if isinstance(why, OSError):
        return Fault(DISK, f"the disk is full: {why}") if why.errno in FULL else Fault(FAULT, str(why))
    at = traceback.extract_tb(why.__traceback__)[-1:]
    line = f" ({os.path.basename(at[0].filename)}, line {at[0].lineno})" if at else ""
    return Fault(FAULT, f"a fault of this program: {type(why).__name__}: {why}{line}")
