#!/usr/bin/env python3
"""Tries the built programs named listing and budgeted on fresh jobs: `try_listing.py COUNT SEED`. Not part of the gate.

The stored listing jobs come first, with the text stored for each, then the longest jobs of edges.py, then COUNT random
jobs of SEED with the evaluator's text, joins alone with `try_listing.py COUNT SEED joined`, children that are often
empty with `absent` in its place. A random job is given to the listing, whose budget is its own, and with the job's
budget to the other program. Both have buffers of their own: those of a random job are left out of account. The programs
are proved and built where they are not there. Where a text differs the bytes go to differs.job in the folder for
temporary files, and the status is 1.
"""

import itertools
import sys
import tempfile
import time
from pathlib import Path

import edges
import evaluator
import format as fmt
import generate
from built import printed
from naive.matching import Matching
from naive.plan import read_plan
from naive.question import read_question
from naive.tables import tables_of
from naive.trials import Spent, Trials
from reader_expected import number_of
from usage import help_first

STORED = Path(__file__).resolve().parent / "stored" / "listing"
BETWEEN = 200               # jobs from one line of progress to the next
GENERATED = {"": generate.random_jobs, "joined": generate.joined_jobs, "absent": generate.absent_jobs}
MOST_TRIALS = 300_000       # a changed question may try so many rows that the evaluator takes too long


def short_enough(job):
    """The evaluator answers the job soon."""
    if number_of(job.data, job.question, job.plan) != 0:
        return True
    blocks = read_question(job.question)
    try:
        Trials(Matching(blocks, tables_of(job.data)), read_plan(job.plan, blocks), MOST_TRIALS).count()
        return True
    except Spent:
        return False


def stored_jobs():
    """The stored jobs and the longest ones: program, name, bytes, text."""
    for path in sorted(STORED.glob("*.job")):
        yield "listing", path.stem, path.read_bytes(), path.with_suffix(".out").read_text()
    for long in edges.long_listing_jobs():
        yield "listing", *long


def random_jobs(count, seed, generated):
    """Fresh jobs with the evaluator's text, twice: under the listing's budget and under their own."""
    for place, job in enumerate(generated(seed, count)):
        if short_enough(job):
            name, content = f"job {place} of seed {seed}", fmt.job_bytes(job)
            yield "listing", name, content, evaluator.listing(content)
            content = fmt.budgeted_bytes(content, job.budget)
            yield "budgeted", name, content, evaluator.budgeted(content)


def differs(program, name, job, got, wanted):
    """Tells of a difference and ends."""
    kept = Path(tempfile.gettempdir()) / "differs.job"
    kept.write_bytes(job)
    print(f"{program}, {name} DIFFERS; its bytes are in {kept}\n  got    {got[:400]!r}\n  wanted {wanted[:400]!r}")
    sys.exit(1)


def main(arguments):
    numbers, kind = arguments[:2], " ".join(arguments[2:])
    if len(numbers) != 2 or not all(word.isdigit() for word in numbers) or kind not in GENERATED:
        sys.exit("usage: try_listing.py COUNT SEED | try_listing.py COUNT SEED joined|absent")
    (count, seed), generated = map(int, numbers), GENERATED[kind]
    began, tried, accepted = time.monotonic(), 0, 0
    for program, name, job, wanted in itertools.chain(stored_jobs(), random_jobs(count, seed, generated)):
        got = printed(program, job)
        if got != wanted:
            differs(program, name, job, got, wanted)
        tried, accepted = tried + 1, accepted + wanted.startswith("ok")
        if tried % BETWEEN == 0:
            print(f"{tried} texts agree, {accepted} of them accepted, {time.monotonic() - began:.0f} s", flush=True)
    print(f"all {tried} texts agree, {accepted} of them accepted, {time.monotonic() - began:.0f} s")


if __name__ == "__main__":
    help_first(__doc__)
    main(sys.argv[1:])
