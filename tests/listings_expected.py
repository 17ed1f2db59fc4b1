#!/usr/bin/env python3
"""The text of crate listings for its stream: that of each input, by the evaluator apart from it or by hand
(listings_jobs.py), and at the end how many inputs there are. `python3 tests/listings_expected.py >
crates/listings/stdout` stores it.
"""

from listings_jobs import inputs
from usage import help_first

if __name__ == "__main__":
    help_first(__doc__)
    texts = [text for _, _, text in inputs()]
    print("".join(texts) + f"inputs: {len(texts)}")
