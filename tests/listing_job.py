#!/usr/bin/env python3
"""The job that crate listing reads on standard input: the longest, so that a short read shows. `listing_job.py` writes
it to standard output, `listing_job.py --write` to crates/listing/stdin.
"""

from pathlib import Path

import edges
import format as fmt
from usage import give_input

STDIN = Path(__file__).resolve().parent.parent / "crates" / "listing" / "stdin"
LONGEST_PART = 65_536


def longest_job():
    """Three parts of 65,536 bytes: those of J, each with zeros behind it. Of a byte less it is no job."""
    data = fmt.job_bytes(edges.J)[6:6 + 4 * len(edges.J.data)]
    contents = (data, edges.J.question, edges.J.plan)
    return edges.parts(*(content + bytes(LONGEST_PART - len(content)) for content in contents))


if __name__ == "__main__":
    give_input(__doc__, STDIN, longest_job)
