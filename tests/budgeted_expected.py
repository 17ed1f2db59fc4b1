#!/usr/bin/env python3
"""The lines of crate budgeted for its input, computed by the evaluator apart from it; `python3
tests/budgeted_expected.py > crates/budgeted/stdout` stores them.
"""

import evaluator
from budgeted_job import STDIN
from usage import help_first

if __name__ == "__main__":
    help_first(__doc__)
    print(evaluator.budgeted(STDIN.read_bytes()), end="")
