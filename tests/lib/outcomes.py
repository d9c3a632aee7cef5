"""What is asked of a run: the time that it may take, and the outcomes that faults have. It puts `bench/` on the path, too,
where `make_bundle` stands.
"""

import os
import sys

TOP = os.path.join(os.path.dirname(os.path.abspath(__file__)), os.pardir, os.pardir)
sys.path.insert(0, os.path.join(TOP, "bench"))

# How many times as slow the programs are as proved ones; `tests/run` says so of those that are built without a proof.
SLOWER = int(os.environ.get("TESTS_SLOWER", "1"))
SECONDS = 60 * SLOWER  # more than any run takes, on a machine with other work too

# Status, standard output and standard error.
NOT_A_BUNDLE = (1, b"", b"not a bundle\n")
OUT_OF_MEMORY = (1, b"", b"out of memory\n")
