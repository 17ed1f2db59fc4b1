#!/usr/bin/env python3
"""The lines of crate listing for its job, computed by the evaluator apart from it; `python3 tests/listing_expected.py >
crates/listing/stdout` stores them.
"""

import evaluator
from listing_job import STDIN
from usage import help_first

if __name__ == "__main__":
    help_first(__doc__)
    print(evaluator.listing(STDIN.read_bytes()), end="")
