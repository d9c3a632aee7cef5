"""Runs of a program in which growths of its memory are refused, by `refuse_growth.c`, preloaded before the C library."""

import os
import subprocess
import tempfile

from outcomes import SECONDS


def compiled(folder):
    """The path of the shared object that refuses growths."""
    path = os.path.join(folder, "refuse_growth.so")
    source = os.path.join(os.path.dirname(os.path.abspath(__file__)), "refuse_growth.c")
    subprocess.run([os.environ.get("CC", "cc"), "-shared", "-fPIC", "-O1", "-o", path, source], check=True)
    return path


def run(program, shim, words, octets, refusal):
    """One run's status, what it printed on both streams, and a `+` or `-` for each growth. The refusal is what stands in the
    environment. The input is a file: of a pipe the program would read now more and now less at once, and so grow more or less
    often."""
    with tempfile.TemporaryFile() as told, tempfile.TemporaryFile() as given:
        given.write(octets)
        given.seek(0)
        environment = {"LD_PRELOAD": shim, "GROWTHS_FD": str(told.fileno()), **refusal}
        how = {"stdin": given, "capture_output": True, "env": environment, "pass_fds": [told.fileno()], "timeout": SECONDS}
        try:
            done = subprocess.run([program, *words], **how)
        except subprocess.TimeoutExpired:
            return (None, b"", b"it had not ended after %d seconds" % SECONDS), ""
        told.seek(0)
        return (done.returncode, done.stdout, done.stderr), told.read().decode()


def refusals(count):
    """The settings of the runs that follow the count, and how many growths are given before the first refused."""
    for number in range(1, count + 1):
        for word in ("REFUSE_AT", "REFUSE_FROM"):
            yield {word: str(number)}, number - 1
