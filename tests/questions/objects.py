#!/usr/bin/env python3
"""Asks the program of questions about signed objects, their contents and locators: tests/questions/objects.py PROGRAM

What contents say, and locators, is asked by objects_contents.py and objects_locator.py, what is read of objects by objects_signed.py,
what is written of them by objects_again.py and objects_built.py. Questions about signed checklists, behind the word `rsc`, are those
of objects_rsc.py, and those about resource tagged attestations, behind `rta`, those of objects_rta_read.py, objects_rta_valid.py and
objects_rta_built.py.
"""

import pathlib
import sys

sys.dont_write_bytecode = True
sys.path.insert(0, str(pathlib.Path(__file__).resolve().parents[1] / "lib"))

import asking  # noqa: E402
from objects_again import written  # noqa: E402
from objects_built import build  # noqa: E402
from objects_contents import contents  # noqa: E402
from objects_locator import locators  # noqa: E402
from objects_rsc import checklists  # noqa: E402
from objects_rta_built import building  # noqa: E402
from objects_rta_read import attestations  # noqa: E402
from objects_rta_valid import validations  # noqa: E402
from objects_signed import signed  # noqa: E402

# Attestations by chance of which it is asked whether they are valid.
BY_CHANCE = 40


def questions():
    """All of them, with their answers."""
    q, rsc, rta = (asking.Questions(words) for words in ("objects", "objects\trsc", "objects\trta"))
    for ask in (contents, locators, signed, written, build):
        ask(q)
    checklists(rsc)
    attestations(rta)
    validations(rta, BY_CHANCE)
    building(rta)
    return [*q.rows, *rsc.rows, *rta.rows]


if __name__ == "__main__":
    asking.main(questions)
