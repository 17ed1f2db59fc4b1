#!/usr/bin/env python3
"""The stream that crate listings reads on standard input: inputs of the programs listing and budgeted, each with the
text that is printed for it.

`listings_jobs.py` writes the stream to standard output, `listings_jobs.py --write` to crates/listings/stdin. An input
has a head of six bytes: the mark LI (for listing) or BJ (for budgeted), and its length, four bytes, the lowest first.
"""

from pathlib import Path

import edges
import evaluator
import format as fmt
import limits
from listing_job import longest_job
from usage import give_input

STDIN = Path(__file__).resolve().parent.parent / "crates" / "listings" / "stdin"
LISTING, BUDGETED = b"LI", b"BJ"
REFUSED = range(3, 12)      # by these a listing refuses before it evaluates


def refused_jobs():
    """A job of the limits for each number from 3 to 11, and one whose set is too large."""
    jobs = {}
    for _, job, number in limits.limit_jobs(long=False):
        if job.budget == fmt.LISTING_BUDGET and job.lengths == tuple(fmt.BUFFER_WORDS):
            jobs.setdefault(number, job)
    return [jobs[number] for number in [*REFUSED, 13]]


def rows_of_three(tables):
    """A job that counts, at each row of the first table, the rows of three tables that have one value."""
    inner = limits.block(0, [(table, [limits.var(table)]) for table in (1, 2, 3)],
                         [(0, limits.var(1), limits.var(2)), (0, limits.var(2), limits.var(3))], [limits.var(1)])
    return limits.job([(1, [[value] for value in range(rows)]) for rows in tables],
                      [limits.block(output=[limits.var(0), fmt.aggregate(0, 1)]), inner])


def trials_of_three(outer, first, second, third):
    """The trials of that job under file: the evaluator counts them one by one, which takes hours past a thousand
    million."""
    return outer + outer * (first + first * second + first * second * third)


def over_the_listings_budget():
    """A job that spends the listing's budget, and the text."""
    tables = (64, 256, 256, 256)
    if not trials_of_three(*tables) > fmt.LISTING_BUDGET:
        raise ValueError("within the listing's budget")
    return fmt.job_bytes(rows_of_three(tables)), "no 12\n"


def listing_inputs():
    """Each way of a bad job, each number, accepted jobs: (bytes, text)."""
    for _, content, text in [*edges.listing_jobs(), *edges.long_listing_jobs()]:
        yield content, text
    for job in refused_jobs():
        yield fmt.job_bytes(job), evaluator.listing(fmt.job_bytes(job))
    small = (5, 4, 3, 2)
    if evaluator.run_job(rows_of_three(small)).trials != trials_of_three(*small):
        raise ValueError("trials_of_three miscounts")
    yield over_the_listings_budget()


def budgeted_inputs():
    """Both sides of J's eight trials, the ends of a budget, and each way of a bad fourth part."""
    job = fmt.job_bytes(edges.J)
    whole = fmt.budgeted_bytes(job, 8)
    large, _ = over_the_listings_budget()
    budgets = (0, 7, 8, 9, 255, 256, 2**32, 2**32 + 7, 2**63, 2**64 - 1)
    contents = [fmt.budgeted_bytes(job, budget) for budget in budgets]
    contents += [fmt.budgeted_bytes(large, budget) for budget in (0, 63, 64, 1_000)]
    contents += [b"", job, whole[:-1], whole[1:], whole + b"\0", whole + whole[-14:], whole[:-14] + b"bu" + whole[-12:],
                 whole[:-14] + b"BV" + whole[-12:], job + fmt.part(b"BU", bytes(7)), job + fmt.part(b"BU", bytes(9)),
                 job + b"BU\x08\x01\0\0" + bytes(8), job + b"BU\x07\0\0\0" + bytes(8), whole[-14:], whole[-13:],
                 fmt.budgeted_bytes(job[:-1], 8), fmt.budgeted_bytes(job + b"\0", 8), fmt.budgeted_bytes(whole, 8)]
    contents.append(fmt.budgeted_bytes(longest_job(), 2**64 - 1))
    for content in contents:
        yield content, evaluator.budgeted(content)


def inputs():
    """All of them: mark, bytes, text."""
    yield from ((LISTING, *given) for given in listing_inputs())
    yield from ((BUDGETED, *given) for given in budgeted_inputs())


def stream():
    return b"".join(fmt.part(mark, content) for mark, content, _ in inputs())


if __name__ == "__main__":
    give_input(__doc__, STDIN, stream)
