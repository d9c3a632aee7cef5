#!/usr/bin/env python3
"""Asks the program of tests/program about resources: sets of AS numbers and addresses, claims, and what is built, read and written of
them.

    resources.py PROGRAM | --count

A tab stands between the words of a question. The first word is `resources`, and the next one the topic, or `call` in front of it.
"""

import pathlib
import sys

sys.dont_write_bytecode = True
sys.path.insert(0, str(pathlib.Path(__file__).resolve().parents[1] / "lib"))

import asking  # noqa: E402
import resources_calls  # noqa: E402
import resources_sets  # noqa: E402
import resources_values  # noqa: E402
from resources_parts import Questions  # noqa: E402


def questions():
    """Each question and its answer."""
    q = Questions()
    for topics in (resources_sets, resources_calls, resources_values):
        topics.ask(q)
    return q.rows


if __name__ == "__main__":
    asking.main(questions)
