#!/usr/bin/env python3
"""The lines of crate cases, computed by the evaluator apart from it: the answer to each job of crates/cases/stdin,
"NUMBER ROWS COLUMNS TRIALS" and then the rows as the listing prints them, and at the end how many jobs there are.

Prints the whole expected output; `python3 tests/cases_expected.py > crates/cases/stdout` stores it. The program has a
line `changed` after an answer where some word of a lent buffer isn't what the paper says: it is not to be met.
"""

from pathlib import Path

import evaluator
import format as fmt
from usage import help_first

STDIN = Path(__file__).resolve().parent.parent / "crates" / "cases" / "stdin"
MOST_WORDS, LONGEST_PART = 16_385, 65_536
MOST_LENT = [2_056, 8_200, 8_200, 1_288]        # words of result, sets, files, indexes


def answers():
    """The text of each answer, and how many they are."""
    count = 0
    for job in fmt.jobs_of(STDIN.read_bytes()):
        if (len(job.data) > MOST_WORDS or max(len(job.question), len(job.plan)) > LONGEST_PART
                or any(words > most for words, most in zip(job.lengths, MOST_LENT))):
            raise ValueError(f"job {count} is longer than the program takes")
        yield evaluator.answer_text(evaluator.run_job(job))
        count += 1
    yield f"jobs: {count}\n"


if __name__ == "__main__":
    help_first(__doc__)
    for text in answers():
        print(text, end="")
