#!/usr/bin/env python3
"""The input that crate budgeted reads on standard input: the longest, so that a short read shows. `budgeted_job.py`
writes it to standard output, `budgeted_job.py --write` to crates/budgeted/stdin.
"""

from pathlib import Path

import format as fmt
from listing_job import longest_job
from usage import give_input

STDIN = Path(__file__).resolve().parent.parent / "crates" / "budgeted" / "stdin"


def longest_input():
    """The longest job and a budget behind it. Of a byte less it is no job with a budget."""
    return fmt.budgeted_bytes(longest_job(), fmt.LISTING_BUDGET)


if __name__ == "__main__":
    give_input(__doc__, STDIN, longest_input)
