"""The plans that a question admits, and the one of them with the fewest trials.

Plans are tried by running them, each with the least count so far as its budget, at most 64. Those with the most merging
and index scans come first: a path changed from file to index to merging never raises the count (proved). Among equal
counts the plan that is smallest in byte order is taken.
"""

import itertools
import time
from dataclasses import dataclass, replace

from text import format as fmt
from text.hints import shown

from .answering import answered, check_buffers, refusal
from .causes import FILE, INDEX, MERGING, path_fault
from .trees import live_rows

MOST_TRIED = 64


@dataclass
class Run:
    """An answer: the plan that gave it, and how many plans were tried of how many."""
    plan: bytes
    rows: list
    trials: int
    tried: int = 1
    admitted: int | None = None         # None where the plan was given
    seconds: float = 0.0


def paths_of(question, number):
    """The paths that a block admits: merging, then index, then file."""
    rows = live_rows(question.blocks[number])
    columns = range(len(rows[0][1])) if rows else ()
    return [(path, column) for path in (MERGING, INDEX) for column in columns
            if path_fault(question, number, path, column) is None] + [(FILE, 0)]


def best_paths(paths):
    """The paths of a block of which none is worse than another for certain: index where it cannot be merging."""
    merged = {column for path, column in paths if path == MERGING}
    found = [(path, column) for path, column in paths
             if path == MERGING or (path == INDEX and column not in merged)]
    return found or paths


def admitted_plans(question):
    """How many plans are admitted, and the plans, the most promising first."""
    paths = [paths_of(question, number) for number in range(len(question.blocks))]
    first = [best_paths(each) for each in paths]
    count = 1
    for each in paths:
        count *= len(each)
    promising = set(itertools.islice(itertools.product(*first), MOST_TRIED))
    rest = (plan for plan in itertools.product(*paths) if plan not in promising)
    return count, (fmt.plan_bytes(plan) for plan in itertools.chain(sorted(promising), rest))


def pick(question):
    """The answer by the admitted plan with the fewest trials; or Refused."""
    check_buffers(question)
    admitted, plans = admitted_plans(question)
    best, tried, began = None, 0, time.perf_counter()
    for plan in itertools.islice(plans, MOST_TRIED):
        budget = question.budget if best is None else best.trials
        number, rows, trials = answered(replace(question, plan=plan, budget=budget))
        tried += 1
        if number not in (0, 12):
            raise refusal(replace(question, plan=plan), number)
        if number == 0 and (best is None or (trials, plan) < (best.trials, best.plan)):
            best = Run(plan, rows, trials)
    if best is None:
        raise refusal(question, 12)
    return replace(best, tried=tried, admitted=admitted, seconds=time.perf_counter() - began)


def run(question):
    """The answer by the question's own plan; or Refused."""
    check_buffers(question)
    began = time.perf_counter()
    number, rows, trials = answered(question)
    seconds = time.perf_counter() - began
    if number != 0:
        raise refusal(question, number)
    return Run(question.plan, rows, trials, seconds=seconds)


def by_file(question):
    """The question with a file scan for each block."""
    return replace(question, plan=fmt.plan_bytes([(FILE, 0)] * len(question.blocks)))


def path_text(question, number, path, column):
    """A path as a plan line writes it."""
    if path == FILE:
        return fmt.PATHS[FILE]
    table = question.tables[live_rows(question.blocks[number])[0][0]]
    return f"{fmt.PATHS[path]} {shown(table.columns[column])}"


def plan_text(question, plan):
    """A plan as a plan line writes it."""
    return ", ".join(f"{shown(question.block_names[number])} {path_text(question, number, plan[at + 2], plan[at + 3])}"
                     for number, at in enumerate(range(0, len(plan), 4)))
