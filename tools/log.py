"""What a run of validate.py says on standard error: lines with the speaker's name and a level.

    validate.py: warning: TEXT      by hand, and in files
    <4>validate.py: TEXT            for systemd's journal, which takes the number as the line's level

The second form is taken where systemd says that standard error is its journal, or by `--log systemd`.
"""

import os
import re
import sys

# As syslog has them (RFC 5424 6.2.1).
LEVELS = {"error": 3, "warning": 4, "notice": 5, "info": 6}
NAMES = {level: name for name, level in LEVELS.items()} | {0: "error", 1: "error", 2: "error", 7: "info"}
FORMS = ("plain", "systemd")
SELF = "validate.py"
# What a program says of a line: its level as systemd has it, and its own name.
FRONT = re.compile(r"(?:<([0-7])>)?([a-z_]+\.py: )?(?:(error|warning|notice|info): )?")
NOT_PLAIN = re.compile(r"[^ -~]")
# Lines are cut to so many characters.
MOST_LINE = 4000


def form_here():
    """The form for where standard error goes."""
    try:
        found = os.fstat(2)
    except OSError:
        return "plain"
    return "systemd" if os.environ.get("JOURNAL_STREAM") == f"{found.st_dev}:{found.st_ino}" else "plain"


class Log:
    """Writes lines to standard error, and to a file of the run's own once there is one."""

    def __init__(self, form=None):
        self.form, self.file = form or form_here(), None

    def keep_in(self, path):
        """From now on lines are written to this file as well."""
        self.file = os.open(path, os.O_WRONLY | os.O_CREAT | os.O_APPEND | os.O_CLOEXEC, 0o644)

    def close(self):
        if self.file is not None:
            os.close(self.file)
            self.file = None

    def tell(self, text, level="info", who=SELF):
        for line in text.splitlines() or [""]:
            self.write(NOT_PLAIN.sub(lambda found: ascii(found[0])[1:-1], line)[:MOST_LINE], level, who)

    def write(self, line, level, who):
        plain = f"{who}: {level}: {line}\n"
        try:
            if self.file is not None:
                os.write(self.file, plain.encode())
        except OSError:
            # (a full disk doesn't keep a run from saying so)
            pass
        try:
            sys.stderr.write(plain if self.form == "plain" else f"<{LEVELS[level]}>{who}: {line}\n")
            sys.stderr.flush()
        except (OSError, ValueError):
            pass

    def relay(self, octets, who, level):
        """Tells a line of a program's, with the level that the line has itself; one that has none and begins with the program's
        name is a warning; all else has that level."""
        number, name, word, text = parts_of(octets)
        self.tell(text, NAMES[int(number)] if number else word or ("warning" if name else level), who)


def parts_of(octets):
    """The level of a program's line as systemd has it, the program's name, the level as a word, and the rest."""
    line = octets.decode("utf-8", "replace")
    front = FRONT.match(line)
    return *front.groups(), line[front.end() :]
