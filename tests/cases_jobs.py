#!/usr/bin/env python3
"""The stream of jobs that crate cases runs on standard input: jobs of every number from 0 to 13, from a seed.

`cases_jobs.py` writes it to standard output, `cases_jobs.py --write` to crates/cases/stdin. It holds the question files
and accepted questions, each under admitted plans of different paths and at budgets about the count; blocks over
projections of tables; the stored joins and the stored questions over children that are often empty; sets about 256
rows; the limits on both sides; damaged questions and plans; the largest numerators; buffers short, exact and longer;
data and questions of the greatest length. Most tables are small: the whole is about 3 megabytes.
"""

import itertools
from dataclasses import replace
from pathlib import Path

import damage
import format as fmt
import generate
import limits
from draw import Draw
from limits import EMPTY, LARGEST, block, const, fixed, var
from naive.matching import Matching
from naive.plan import Path as PlanPath
from naive.plan import admitted_paths
from naive.question import read_question
from naive.tables import tables_of
from naive.trials import Spent, Trials
from reader_expected import number_of
from reader_jobs import faulty_job, planned_job, question_jobs
from usage import give_input

STDIN = Path(__file__).resolve().parent.parent / "crates" / "cases" / "stdin"
SEED = 475_001
ACCEPTED, STACKED, LARGE, CROWDED, GREATEST, AVERAGES, SHORT, TOILSOME = 170, 40, 10, 24, 24, 14, 130, 7
OF_EACH_FAULT, OF_TWO, OF_THREE, CHANGED, PLANNED = 12, 120, 120, 200, 100
MOST_PLANS = 6
LARGE_TRIALS = 40_000           # of a question over large tables, by file
ROOM = 8                        # words that a lent buffer may have over the required ones


def lengths(draw):
    """Lengths of the lent buffers: those required, and some words more now and then."""
    return tuple(words + (draw.below(ROOM + 1) if draw.chance(30) else 0) for words in fmt.BUFFER_WORDS)


def plans_of(draw, job):
    """Admitted plans of an accepted question, each of other paths, at most MOST_PLANS."""
    blocks, mixes = read_question(job.question), {}
    for plan in itertools.product(*(admitted_paths(blocks, number) for number in range(len(blocks)))):
        mixes.setdefault(tuple(path for path, _ in plan), []).append(plan)
    return [draw.one_of(mixes[mix]) for mix in draw.shuffled(mixes)[:MOST_PLANS]]


def budgets_of(draw, trials, all_of_them):
    """Budgets for a plan of this count: ample, exact, one less and 0, or ample and one other."""
    ample, others = draw.one_of([fmt.LISTING_BUDGET, 2**64 - 1]), [trials, max(trials - 1, 0), 0]
    return [ample, *others] if all_of_them else [ample, draw.one_of([*others, draw.below(trials + 1)])]


def under_plans(draw, job):
    """An accepted question under its plans, the first of them at every budget."""
    matching = Matching(read_question(job.question), tables_of(job.data))
    for place, plan in enumerate(plans_of(draw, job)):
        trials = Trials(matching, plan).count()
        for budget in budgets_of(draw, trials, place == 0):
            yield replace(job, plan=fmt.plan_bytes(plan), budget=budget, lengths=lengths(draw))


def question_file_jobs(draw):
    """The question files as they are, and those accepted as far as 11 under their plans."""
    for job in question_jobs():
        yield job
        if number_of(job.data, job.question, job.plan) in (0, 11):
            yield from under_plans(draw, job)


def stacked_jobs(draw):
    """A block over projections, mostly by index: budget ample, met, missed by one, and twice by more."""
    draft = generate.stacked_draft(draw)
    trials = generate.trials_of(draft)
    for budget in [fmt.LISTING_BUDGET, trials, trials - 1, draw.below(trials), draw.below(trials)]:
        yield replace(draft.job(), budget=budget, lengths=lengths(draw))


def large_tables(draw):
    """Two or three tables of up to 256 rows, some columns of few values and some of many."""
    tables = []
    for _ in range(draw.between(2, 3)):
        spread = [draw.one_of([3, 10, 40, 1_000]) for _ in range(draw.between(1, 4))]
        rows = draw.one_of([20, 40, 60, 100, 256])
        tables.append((len(spread), [[draw.below(values) - values // 3 for values in spread] for _ in range(rows)]))
    return tables


def large_job(draw):
    """An accepted question over large tables."""
    while True:
        tables = large_tables(draw)
        draft = generate.Draft(tables, generate.QuestionMaker(draw, tables).make())
        try:
            trials = Trials(draft.matching(), [PlanPath(0, 0)] * len(draft.blocks), LARGE_TRIALS).count()
        except Spent:
            continue
        if trials > 1_000 and len(draft.matching().set_of(0, {})) >= draw.one_of([1, 10, 40]):
            return draft.job()


def toilsome_job(draw):
    """An accepted question whose count passes its budget by far, up to 256^9 and more."""
    table = (2, [[row, row % draw.between(1, 256)] for row in range(256)])
    rows = [(0, [var(0), EMPTY]), (0, [var(1), var(0)]), (0, [var(2), EMPTY])]
    below = [(0, [var(3), fixed(0)]), (0, [var(4), EMPTY]), (0, [EMPTY, var(5)])]
    blocks = [block(rows=rows, output=[var(2), fmt.aggregate(0, 1)]), block(0, below, output=[var(4), var(5)])]
    return limits.job([table], blocks, [(0, 0), draw.one_of([(0, 0), (1, 1), (2, 1)])],
                      budget=draw.one_of([0, 1, 256, 257, 1_000, 30_000, 30_001]))


def greatest_values(draw):
    """The values of a column of up to 256 rows, near the largest in size, of one sign or of both."""
    rows, near = draw.one_of([1, 251, 255, 256, 256, 256]), draw.one_of([1, 2, 1_000])
    sign = draw.one_of([lambda _: 1, lambda _: 1, lambda _: -1, lambda _: -1, lambda row: 1 - 2 * (row % 2)])
    return [sign(row) * (LARGEST - draw.below(near)) for row in range(rows)]


def greatest_job(draw):
    """Aggregates of aggregates three levels deep, by merging, over values near the largest."""
    middle, inner = (1 if draw.chance(75) else draw.one_of([2, 3]) for _ in range(2))
    top = [fmt.aggregate(function, 1, 1) for function in [1, *draw.shuffled([1, 2, 3, 4])[:2]]]
    conditions = [(draw.below(6), top[2], const(draw.one_of([0, 10**15, -10**15, 256**3 * LARGEST])))]
    blocks = [block(rows=[], output=top[:2], conditions=conditions if draw.chance(35) else []),
              block(0, [(0, [var(0), var(1), EMPTY])], output=[var(0), fmt.aggregate(middle, 2, 1)]),
              block(1, [(0, [var(2), fixed(1), EMPTY])], output=[var(2), fmt.aggregate(inner, 3, 1)]),
              block(2, [(0, [var(3), fixed(1), var(4)])], output=[var(3), var(4)])]
    groups = draw.one_of([1, 1, 1, 2, 3])
    table = 3, [[row, row % groups, value] for row, value in enumerate(greatest_values(draw))]
    return limits.job([table], blocks, [(0, 0), (0, 0), (2, 1), (2, 1)], lengths=lengths(draw))


def averages_job(draw):
    """The averages of two children over values near the largest, put out and compared."""
    tables = [(1, [[pan] for pan in range(4)])]
    for _ in range(2):
        values = greatest_values(draw)
        split = [draw.below(4) if draw.chance(90) else 5 for _ in values]
        tables.append((3, [[row, pan, value] for row, (pan, value) in enumerate(zip(split, values))]))
    averages = [fmt.aggregate(4, 1, 1), fmt.aggregate(4, 2, 1)]
    blocks = [block(output=[var(0), *averages], conditions=[(draw.below(6), *averages)] * draw.below(2)),
              block(0, [(1, [var(1), fixed(0), var(2)])], output=[var(1), var(2)]),
              block(0, [(2, [var(3), fixed(0), var(4)])], output=[var(3), var(4)])]
    return limits.job(tables, blocks, [(0, 0), *(draw.one_of([(0, 0), (1, 1), (2, 1)]) for _ in range(2))])


def short_job(draw):
    """An accepted or a damaged question with a buffer short, by one word mostly."""
    job = generate.random_draft(draw).job() if draw.chance(60) else generate.damaged_job(draw, 1)[0]
    lent = list(lengths(draw))
    for place in draw.one_of([[0], [0], [0], [1], [2], [3], [0, 1, 2, 3], draw.shuffled(range(4))[:2]]):
        words = fmt.BUFFER_WORDS[place]
        lent[place] = draw.one_of([words - 1, words - 1, words - 1, draw.below(words), 0])
    return replace(job, lengths=tuple(lent), budget=draw.one_of([job.budget, job.budget, 0]))


def long_jobs(draw):
    """Data of 16,377 words under three plans, of 16,384 in no layout, with a value out of range, and of 16,385;
    a question of 65,536 bytes, and questions of many blocks."""
    tables = [(8, [[draw.below(16) for _ in range(8)] for _ in range(rows)]) for rows in [256] * 7 + [253]]
    blocks = [block(rows=[(6, [var(0), var(1)] + [EMPTY] * 6)], output=[var(0), var(1), fmt.aggregate(4, 1, 1)]),
              block(0, [(7, [fixed(0), var(2), var(3), EMPTY, var(4)] + [EMPTY] * 3)], output=[var(2), var(3), var(4)])]
    for path in [(0, 0), (1, 0), (2, 0)]:
        yield limits.job(tables, blocks, [(0, 0), path], lengths=lengths(draw))
    job = limits.job(tables, blocks)
    yield replace(job, data=job.data + [0] * 7)
    yield replace(job, data=job.data[:-1] + [LARGEST + 1])
    yield from (job for _, job, number in limits.long_data_limits() if number == 3)
    many = b"BK\0OL\1" + fmt.element_bytes(var(0))
    for blocks in (6, 100, 300):
        yield replace(limits.job(), question=many * blocks + b"EN")
    yield replace(limits.job(), question=many * 300)
    yield replace(limits.job(), question=b"BK\xffOL\0" + many * 4_368 + b"BK\0OL\0EN", plan=b"PL\0\0" * 300)


def limit_jobs():
    """The limits on both sides, but for the longest data."""
    return [job for _, job, _ in limits.limit_jobs(long=False)]


def lent(draw, job):
    """The job with some buffers longer."""
    return replace(job, lengths=lengths(draw))


def jobs():
    """All jobs, in their order."""
    draw = Draw(SEED)
    found = [*question_file_jobs(draw), *limit_jobs()]
    for make, count in [(lambda d: generate.random_draft(d).job(), ACCEPTED), (large_job, LARGE),
                        (lambda d: generate.crowded_draft(d).job(), CROWDED)]:
        for _ in range(count):
            found += under_plans(draw, make(draw))
    for _ in range(STACKED):
        found += stacked_jobs(draw)
    found += [lent(draw, job) for job in generate.joined_jobs(generate.JOINED_SEED, generate.JOINED)]
    found += [lent(draw, job) for job in generate.absent_jobs(generate.ABSENT_SEED, generate.ABSENT)]
    for make, count in [(greatest_job, GREATEST), (averages_job, AVERAGES), (toilsome_job, TOILSOME),
                        (short_job, SHORT)]:
        found += [make(draw) for _ in range(count)]
    found += [lent(draw, faulty_job(draw, fault)) for _ in range(OF_EACH_FAULT) for _, fault in damage.FAULTS]
    found += [lent(draw, generate.damaged_job(draw, 2)[0]) for _ in range(OF_TWO)]
    found += [lent(draw, generate.damaged_job(draw, 3)[0]) for _ in range(OF_THREE)]
    found += [damage.change_bytes(draw, generate.random_draft(draw).job()) for _ in range(CHANGED)]
    found += [lent(draw, planned_job(draw)) for _ in range(PLANNED)]
    return found + list(long_jobs(draw))


if __name__ == "__main__":
    give_input(__doc__, STDIN, lambda: fmt.stream_bytes(jobs()))
