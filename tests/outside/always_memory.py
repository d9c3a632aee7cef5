#!/usr/bin/env python3
"""Shows that answers tell bodies that always tell lack of memory, which no clause refuses.

    always_memory.py

In a temporary folder stands a copy of the libraries with the program of tests/program over them, in which `run`, `walk`, `judge`, `reach`,
`naming_chains`, `diagnose`, `cost`, `point` and `point_unheld` of rpki_validator, wherever their bodies stand, answer lack of memory and
do nothing else. That program is made (`programs.py`), once for
all of them, and asked some of the questions of the topics that ask these calls (`validator.py`): each has to be answered by lack of
memory, and so otherwise than is right.

Prints a line for each answer that isn't right, and `N passed, M failed`; exits with 1 where one failed.
"""

import collections
import pathlib
import subprocess
import sys
import tempfile

sys.dont_write_bytecode = True
TOP = pathlib.Path(__file__).resolve().parents[2]
sys.path[:0] = [str(TOP / "tests" / "questions"), str(TOP / "tests" / "lib")]

import programs  # noqa: E402
import validator  # noqa: E402

SECONDS = 900
REFUSED = "Err(AllocError)"
# Of each call the file that has it, and its body.
BUNDLES, POINTS = "rpki_validator/src/bundles.rt", "rpki_steps/src/point/octets.rt"
BODIES = {
    "run": ("rpki_validator/src/runs.rt", "Err(RunError::Memory)"),
    "walk": (BUNDLES, REFUSED),
    "judge": (BUNDLES, REFUSED),
    "reach": (BUNDLES, REFUSED),
    "naming_chains": (BUNDLES, REFUSED),
    "diagnose": (BUNDLES, REFUSED),
    "cost": (BUNDLES, REFUSED),
    "point": (POINTS, REFUSED),
    "point_unheld": (POINTS, REFUSED),
}
# How the questions that ask each call begin, how many are asked, and what is to be answered.
LACKS = "memory allocation failed"
TOPICS = {"check": (20, "1 [] [out of memory|]"), "witnesses": (4, LACKS), "judge": (8, LACKS), "reach": (8, LACKS), "naming": (8, LACKS)}
TOPICS |= {"point": (6, "out of memory"), "unheld": (6, "out of memory")}
TOPICS |= {f"ask\t{name}": (6, "2 [] [out of memory|]") for name in ("refusals", "cost")}

# Of these topics only what is answered well.
GOOD = ("check", "ask\trefusals", "ask\tcost")


def replaced(text, call, body):
    """A file's text with another body of a public function."""
    start = text.index(f"\npub fn {call}<")
    first = text.index("\n{\n", start) + len("\n{\n")
    rest = text[text.index("\n}\n", first) :]
    return f"{text[:first]}    {body}{rest}"


def lay(folder):
    """The copy, with these bodies; the program's folder."""
    crate = programs.lay(pathlib.Path(folder))
    for call, (file, body) in BODIES.items():
        path = pathlib.Path(folder) / "crates" / file
        path.write_text(replaced(path.read_text(), call, body))
    return crate


def asked_of():
    """Some questions of each topic, with their answers: the first ones, and of `check` those whose status is 0."""
    found = collections.Counter()
    for question, answer in validator.questions():
        topic = next((topic for topic in TOPICS if question.startswith(f"validator\t{topic}\t")), None)
        if topic and found[topic] < TOPICS[topic][0] and (topic not in GOOD or answer.startswith("0 ")):
            found[topic] += 1
            yield topic, question, answer


def main():
    asked = list(asked_of())
    with tempfile.TemporaryDirectory() as folder, tempfile.TemporaryDirectory() as room:
        how = {"input": "".join(f"{question}\n" for _, question, _ in asked), "capture_output": True, "text": True, "timeout": SECONDS}
        done = subprocess.run([programs.tried(lay(folder), pathlib.Path(room))], cwd=room, **how)
    said = done.stdout.splitlines()
    wrong = [] if len(said) == len(asked) else [f"{len(said)} answers to {len(asked)} questions: {done.stderr[-1500:]}"]
    for (topic, question, answer), told in zip(asked, said):
        if told == answer or told != TOPICS[topic][1]:
            wrong.append(f"{question[:100]!r}: {told[:200]!r}; right is {answer[:100]!r}")
    print("\n".join(wrong))
    print(f"{len(asked) - len(wrong)} passed, {len(wrong)} failed")
    sys.exit(1 if wrong else 0)


if __name__ == "__main__":
    main()
