#!/usr/bin/env python3
"""Asks the program of questions about the codec: tests/questions/codec.py PROGRAM

The scripts `codec_*.py` have the questions, a topic each. Their answers come from Python's own integers and texts, from small
readers and writers after X.690 (`codec_spelled.py`, `codec_walks.py`), from examples of X.690, RFC 3629 and OpenSSL, and from the
worked cases `codec-core-cases`, `string-cases` and `codec-values`. The questions and answers that `tests/outside/bcder_answers.py`
recorded of the Rust crate come first.
"""

import pathlib
import sys

sys.dont_write_bytecode = True
sys.path.insert(0, str(pathlib.Path(__file__).resolve().parents[1] / "lib"))

import asking  # noqa: E402
import codec_contents  # noqa: E402
import codec_numbers  # noqa: E402
import codec_strings  # noqa: E402
import codec_walks  # noqa: E402
import codec_writing  # noqa: E402

RECORDED = pathlib.Path(__file__).resolve().parent / "bcder_answers.txt"


def recorded(q):
    """What the Rust crate answers, as `bcder_answers.py` recorded it: an answer behind each question."""
    for line in RECORDED.read_text().splitlines():
        question, answer = line.split(" = ")
        q.ask(answer, "front", *question.split(" "))


def questions():
    """All questions about the codec, and their answers."""
    q = asking.Questions("codec")
    recorded(q)
    for topic in (codec_contents, codec_numbers, codec_strings, codec_writing, codec_walks):
        topic.ask(q)
    return q.rows


if __name__ == "__main__":
    asking.main(questions)
