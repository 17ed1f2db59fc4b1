#!/usr/bin/env python3
"""The lines of crate reader_test, computed by the evaluator apart from it: the lowest number from 3 to 11 that
applies to each job of crates/reader_test/stdin, 0 where none does, and the same of job J with each byte of its
question, and then of its plan, changed to each value, counted by number.

Prints the whole expected output; `python3 tests/reader_expected.py > crates/reader_test/stdout` stores it.
"""

from pathlib import Path

import evaluator
import format as fmt
import limits
from usage import help_first

STDIN = Path(__file__).resolve().parent.parent / "crates" / "reader_test" / "stdin"
MOST_WORDS, MOST_QUESTION, MOST_PLAN = 1_024, 4_096, 64
J_DATA = fmt.data_words(limits.J_TABLES)
J_QUESTION = fmt.question_bytes(limits.j_blocks())
J_PLAN = fmt.plan_bytes([(0, 0), (2, 1)])


def number_of(data, question, plan):
    """The lowest number from 3 to 11 that applies, 0 if none does; nothing is matched."""
    run = evaluator.Run(data, question, plan, 0, None)
    causes = enumerate(evaluator.CAUSES[2:11], start=3)
    return next((number for number, cause in causes if cause(run)), 0)


def job_lines():
    """A line for each job of the stored stream, and how many they are."""
    count = 0
    for job in fmt.jobs_of(STDIN.read_bytes()):
        if len(job.data) > MOST_WORDS or len(job.question) > MOST_QUESTION or len(job.plan) > MOST_PLAN:
            raise ValueError(f"job {count} is longer than the program takes")
        yield number_of(job.data, job.question, job.plan)
        count += 1
    yield f"jobs: {count}"


def changes_of(content):
    """The content with each byte changed to each value, its own among them."""
    for at in range(len(content)):
        for value in range(256):
            yield content[:at] + bytes([value]) + content[at + 1:]


def change_lines(name, numbers):
    """A line for 0 and for each number from 3 to 11: how many of the numbers it is."""
    numbers = list(numbers)
    return [f"{name} {number}: {numbers.count(number)}" for number in [0, *range(3, 12)]]


def lines():
    yield from job_lines()
    yield from change_lines("question", (number_of(J_DATA, question, J_PLAN) for question in changes_of(J_QUESTION)))
    yield from change_lines("plan", (number_of(J_DATA, J_QUESTION, plan) for plan in changes_of(J_PLAN)))


if __name__ == "__main__":
    help_first(__doc__)
    for line in lines():
        print(line)
