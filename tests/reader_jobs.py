#!/usr/bin/env python3
"""The stream of jobs that crate reader_test reads on standard input: jobs of causes 3 to 11 and of none, from a seed.

`reader_jobs.py` writes it to standard output, `reader_jobs.py --write` to crates/reader_test/stdin. It holds the
question files, each limit and one past it, every truncation of J's question, accepted questions, each fault alone,
two and three faults at once, questions with some bytes changed, and accepted questions with a path drawn. Tables are
small: the whole is about a megabyte.
"""

from pathlib import Path

import damage
import format as fmt
import generate
import limits
import notation
from draw import Draw
from usage import give_input

HERE = Path(__file__).resolve().parent
STDIN = HERE.parent / "crates" / "reader_test" / "stdin"
SEED = 474_475
ACCEPTED, CROWDED, OF_EACH_FAULT, OF_TWO, OF_THREE, CHANGED, PLANNED = 300, 10, 30, 450, 450, 400, 450


def question_jobs():
    """The jobs of the question files, J among them."""
    return [notation.compile_file(path) for path in sorted((HERE / "questions").glob("*.abe"))]


def cut_jobs():
    """Every truncation of J's question, that to no byte and the whole among them."""
    question, plan = fmt.question_bytes(limits.j_blocks()), fmt.plan_bytes([(0, 0), (2, 1)])
    return [fmt.Job(fmt.data_words(limits.J_TABLES), question[:length], plan) for length in range(len(question) + 1)]


def faulty_job(draw, fault):
    """An accepted question with this one fault."""
    while True:
        draft = generate.random_draft(draw)
        draft.admitted_before = draft.admitted()
        if fault(draw, draft):
            return draft.job()


def planned_job(draw):
    """An accepted question with index or merging drawn for one block, admitted or not, mostly on a column where a
    constant or a fixed variable stands in some relation row."""
    draft = generate.random_draft(draw)
    number = draw.below(len(draft.paths))
    wanted = [place for _, entries in draft.blocks[number].relation_rows for place, (kind, _) in enumerate(entries)
              if kind in (fmt.CONSTANT, fmt.FIXED)]
    column = draw.one_of(wanted) if wanted and draw.chance(80) else draw.below(5)
    draft.paths[number] = draw.one_of([1, 2, 2]), column
    return draft.job()


def jobs():
    """All jobs, in their order."""
    draw = Draw(SEED)
    found = question_jobs() + [job for _, job, _ in limits.limit_jobs(long=False)] + cut_jobs()
    found += [generate.random_draft(draw).job() for _ in range(ACCEPTED)]
    found += [generate.crowded_draft(draw).job() for _ in range(CROWDED)]
    found += [faulty_job(draw, fault) for _ in range(OF_EACH_FAULT) for _, fault in damage.FAULTS]
    found += [generate.damaged_job(draw, 2)[0] for _ in range(OF_TWO)]
    found += [generate.damaged_job(draw, 3)[0] for _ in range(OF_THREE)]
    found += [damage.change_bytes(draw, generate.random_draft(draw).job()) for _ in range(CHANGED)]
    found += [planned_job(draw) for _ in range(PLANNED)]
    return found


if __name__ == "__main__":
    give_input(__doc__, STDIN, lambda: fmt.stream_bytes(jobs()))
