"""Checks the stored expected outputs with the evaluator, and the evaluator itself. One line for each check; status 1
and what differs if any fails. `check.py --write` rewrites the generated files under stored/ instead; the outputs
under questions/ are written by hand and never rewritten.
"""

import itertools
import subprocess
import sys
from pathlib import Path as FilePath

import edges
import edits
import evaluator
import format as fmt
import generate
import limits
import notation
from draw import Draw
from naive.matching import Matching
from naive.plan import Path
from naive.question import read_question
from naive.tables import tables_of
from naive.trials import Trials
from sql import Sql, TooLong
from usage import help_first

HERE = FilePath(__file__).resolve().parent
QUESTIONS = HERE / "questions"
STORED = HERE / "stored"
JOBS_SEED, JOBS = 4749, 260
INDEX_SEED, INDEX_CALLS = 474, 60
MOST_PLANS = 24
PROGRAMS = {"chart_expected.py": "chart_test", "value_expected.py": "value_test",        # who computes the stdout of
            "tables_expected.py": "tables_test", "reader_expected.py": "reader_test", "cases_expected.py": "cases",
            "listing_expected.py": "listing", "listings_expected.py": "listings", "budgeted_expected.py": "budgeted"}
INPUTS = {"reader_jobs.py": "reader_test", "cases_jobs.py": "cases", "listing_job.py": "listing",   # .. the stdin of
          "listings_jobs.py": "listings", "budgeted_job.py": "budgeted"}


class Differs(Exception):
    """What differs."""


def same(what, got, wanted):
    if got != wanted:
        raise Differs(f"{what}\n  got    {shorten(got)}\n  wanted {shorten(wanted)}")


def shorten(thing):
    text = repr(thing)
    return text if len(text) <= 400 else text[:400] + " .."


def question_jobs():
    """The jobs of the question files, by name."""
    return {path.stem: notation.compile_file(path) for path in sorted(QUESTIONS.glob("*.abe"))}


def stored_files():
    """The generated files: name and bytes."""
    streams = {"questions": list(question_jobs().values()),
               "limits": [job for _, job, _ in limits.limit_jobs(long=False)],
               "random": generate.random_jobs(JOBS_SEED, JOBS),
               "joined": generate.joined_jobs(generate.JOINED_SEED, generate.JOINED),
               "absent": generate.absent_jobs(generate.ABSENT_SEED, generate.ABSENT)}
    for name, jobs in streams.items():
        yield f"{name}.stream", fmt.stream_bytes(jobs)
        yield f"{name}.answers", "".join(evaluator.answer_text(evaluator.run_job(job)) for job in jobs).encode()
    calls = generate.random_index_calls(INDEX_SEED, INDEX_CALLS)
    yield "indexes.stream", fmt.index_stream_bytes(calls)
    yield "indexes.answers", "".join(map(evaluator.index_text, calls)).encode()
    for name, job, text in edges.listing_jobs():
        yield f"listing/{name}.job", job
        yield f"listing/{name}.out", text.encode()


def answers_in(text):
    """The answers in a text of them: the number, and the rows as their lines have them, numerators and denominators."""
    lines = iter(text.splitlines())
    for line in lines:
        number, rows, _, _ = map(int, line.split())
        yield number, [[value_of(field) for field in next(lines).split()] for _ in range(rows)]


def value_of(field):
    if field == "-":
        return 0, 0
    numerator, _, denominator = field.partition("/")
    return int(numerator), int(denominator or 1)


def numbers_of(answers):
    """The numbers in a text of answers."""
    return {number for number, _ in answers_in(answers.decode())}


def check_questions():
    """Every question file against its output, by the figures and by the listing."""
    jobs = question_jobs()
    for name, job in jobs.items():
        wanted = (QUESTIONS / f"{name}.out").read_text()
        answer = evaluator.run_job(job)
        same(f"questions/{name}", evaluator.answer_text(answer), wanted)
        head, _, rows = wanted.partition("\n")
        number, figures = head.split(" ", 1)
        same(f"listing of questions/{name}", evaluator.listing_text(answer),
             f"ok {figures}\n{rows}" if number == "0" else f"no {number}\n")
    same("outputs without a question", sorted(path.stem for path in QUESTIONS.glob("*.out")), sorted(jobs))
    return f"{len(jobs)} questions"


def check_edges():
    """Buffers' words, the index, the listing's refusals."""
    cases = list(edges.all_cases())
    for what, got, wanted in cases:
        same(what, got, wanted)
    return f"{len(cases)} edges"


def check_limits():
    """Each limit, and one past it, by its number; the largest numerators."""
    jobs = list(limits.limit_jobs())
    for what, job, number in jobs:
        same(f"limit: {what}", evaluator.run_job(job).number, number)
    largest = evaluator.run_job(limits.largest_numerator())
    same("the largest numerator", (largest.trials, largest.row_list), (768, [((16_777_216_000_000, 1),)]))
    largest = evaluator.run_job(limits.largest_numerators())
    same("the largest numerators", (largest.trials, largest.row_list),
         (1_544, [((-16_777_216_000_000, 1), (2, 1)), ((16_777_216_000_000, 1), (1, 1))]))
    return f"{len(jobs)} limits"


def check_faults():
    """Damaged jobs bring the lowest number meant."""
    draw, met = Draw(11), {}
    for place in range(700):
        faults = [1, 1, 1, 1, 2, 2, 3][place % 7]
        job, meant = generate.damaged_job(draw, faults)
        same(f"damaged job {place}", evaluator.run_job(job).number, meant)
        met[meant] = met.get(meant, 0) + 1
    same("numbers brought by faults", sorted(met), list(range(3, 12)))
    return "700 damaged jobs"


def check_stored():
    """The stored streams and answers are those of the seed and the evaluator; every number is met."""
    files = dict(stored_files())
    for name, wanted in files.items():
        path = STORED / name
        if not path.exists():
            raise Differs(f"stored/{name} is missing")
        same(f"stored/{name}", path.read_bytes(), wanted)
    present = {str(path.relative_to(STORED)) for path in STORED.rglob("*") if path.is_file()}
    same("files under stored/", sorted(present), sorted(files))
    for name in ("questions", "limits", "random", "joined", "absent"):
        for job in fmt.jobs_of(files[f"{name}.stream"]):
            if len(job.data) > 1_024 or len(job.question) > 4_096 or len(job.plan) > 64:
                raise Differs(f"a job of {name}.stream is longer than README.md says")
    same("numbers met in limits.stream", numbers_of(files["limits.answers"]), {*range(14)})
    same("numbers met in random.stream", numbers_of(files["random.answers"]), {0, *range(3, 14)})
    same("numbers met in joined.stream", numbers_of(files["joined.answers"]), {0, 12, 13})
    same("numbers met in absent.stream", numbers_of(files["absent.answers"]), {0, 12})
    return f"{len(files)} stored files, {sum(map(len, files.values())):,} bytes"


def precedes(row, other):
    """Whether a row is less than another: in the first column in which they differ, absent first (request No. 3), else
    by cross products."""
    for (n, d), (m, e) in zip(row, other):
        if (n, d) != (m, e):
            return d == 0 if 0 in (d, e) else n * e < m * d
    return False


def check_order():
    """Request No. 2: in every stored output each row is less than the next."""
    pairs = 0
    for path in [*sorted(QUESTIONS.glob("*.out")), *sorted(STORED.glob("*.answers"))]:
        if path.name == "indexes.answers":
            continue
        for place, (_, rows) in enumerate(answers_in(path.read_text())):
            for row, other in itertools.pairwise(rows):
                same(f"{path.name}, answer {place}: {row} before {other}", precedes(row, other), True)
                pairs += 1
    return f"{pairs:,} pairs of neighbouring rows"


def check_round_trip():
    """Bytes to notation and back, over accepted questions with any plan, budget and buffers."""
    draw = Draw(22)
    jobs = list(question_jobs().values()) + [generate.random_job(draw) for _ in range(300)]
    jobs += [job for _, job, number in limits.limit_jobs(long=False) if number in (0, 8, 9, 10, 11, 12, 13)]
    shown = 0
    for place, job in enumerate(jobs):
        try:
            text = notation.show(job)
        except notation.NotExpressible:
            if evaluator.run_job(job).number in (3, 5, 7):
                continue
            raise
        same(f"job {place} shown and compiled", notation.compile_text(text), job)
        shown += 1
    return f"{shown} jobs"


def drafts(draw, count, crowded, joined, absent):
    """`count` accepted questions, of every `crowded` one crowded, after them `joined` joins, and `absent` ones over
    children that are often empty."""
    for place in range(count):
        yield generate.crowded_draft(draw) if place % crowded == 0 else generate.random_draft(draw)
    for _ in range(joined):
        yield generate.joined_draft(draw)
    for _ in range(absent):
        yield generate.absent_draft(draw)


def check_plans():
    """Demand 3 and request No. 2: all admitted plans give the same refusal by 13, or the same rows in the same words of
    the result; file to index to merging never raises the count; the count is met as a budget and missed by one."""
    draw, plans = Draw(33), 0
    for place, draft in enumerate(drafts(draw, 250, 25, 80, 80)):
        matching, counts, outcomes = draft.matching(), {}, set()
        for paths in itertools.islice(itertools.product(*draft.admitted()), MOST_PLANS):
            counts[paths] = Trials(matching, [Path(*path) for path in paths]).count()
            draft.paths = list(paths)
            outcomes.add(check_plan(draft, counts[paths]))
        same(f"outcomes of question {place} under its plans", len(outcomes), 1)
        check_counts(place, counts)
        plans += len(counts)
    return f"{plans} plans of 410 questions"


def check_plan(draft, trials):
    """One plan at three budgets; its number and the result's words at the first."""
    job = draft.job()
    answer = evaluator.run(job.data, job.question, job.plan, 2**64 - 1)
    same("trials in full", answer.trials, trials)
    exact = evaluator.run(job.data, job.question, job.plan, trials)
    same("budget met", exact[:5], answer[:5])
    if trials > 0:
        missed = evaluator.run(job.data, job.question, job.plan, trials - 1)
        same("budget missed by one", missed[:5], (12, 0, 0, trials - 1, []))
    return answer.number, tuple(answer.after.result)


def check_counts(place, counts):
    """No block's step from file to index, or from index to merging on the same column, raises the count."""
    for paths, count in counts.items():
        for number, (path, column) in enumerate(paths):
            for better in {0: [(1, c) for c in range(8)], 1: [(2, column)], 2: []}[path]:
                other = paths[:number] + (better,) + paths[number + 1:]
                if counts.get(other, 0) > count:
                    raise Differs(f"question {place}: {other} has {counts[other]} trials, {paths} {count}")


def check_sqlite():
    """SQLite's rows, trials and largest set against the evaluator's."""
    draw, questions, plans = Draw(44), 0, 0
    for place, draft in enumerate(drafts(draw, 400, 10, 120, 200)):
        job = draft.job()
        matching = Matching(read_question(job.question), tables_of(job.data))
        sql = Sql(matching.blocks, matching.tables)
        try:
            same(f"rows of question {place}", evaluator.row_list(matching.set_of(0, {})), sql.rows())
            for paths in [tuple(draft.paths), tuple([(0, 0)] * len(matching.blocks))]:
                counted = Trials(matching, [Path(*path) for path in paths]).count()
                same(f"trials of question {place} under {paths}", counted, sql.trials(paths))
                plans += 1
            same(f"too large, question {place}", matching.too_large(), sql.largest_set() > 256)
            questions += 1
        except TooLong:
            continue
        finally:
            sql.close()
    if questions < 500:
        raise Differs(f"only {questions} questions were short enough for SQLite")
    return f"{questions} questions, {plans} plans"


def output_of(script):
    """What a script beside this one prints."""
    return subprocess.run([sys.executable, HERE / script], capture_output=True, check=True).stdout


def check_programs():
    """What the test programs read, and what they are held to, is what the scripts beside this one give apart from
    them."""
    crates = HERE.parent / "crates"
    for script, crate in INPUTS.items():
        same(f"crates/{crate}/stdin", output_of(script), (crates / crate / "stdin").read_bytes())
    for script, crate in PROGRAMS.items():
        same(f"crates/{crate}/stdout", output_of(script), (crates / crate / "stdout").read_bytes())
    return f"{len(PROGRAMS)} programs' outputs and {len(INPUTS)} inputs"


def check_edit(edit, crate):
    """One wrong program: each old text stands once in the file it is meant for, after the replacements before it, and
    the new text differs."""
    name, texts = edit.relative_to(HERE.parent), {}
    for file, old, new in edits.pairs_of(edit):
        parts = file.split("/")
        if parts[0] not in ("src", "specs", "proofs") or ".." in parts or not (crate / file).is_file():
            raise Differs(f"{name}: crates/{crate.name} has no file {file!r} that can be edited")
        text = texts.get(file) or (crate / file).read_text()
        same(f"{name}: how often {file} has {old!r}", text.count(old) if old else 0, 1)
        if new == old:
            raise Differs(f"{name}: the new text is the old one, {old!r}")
        texts[file] = text.replace(old, new)
    if not texts:
        raise Differs(f"{name} replaces nothing")


def check_edits():
    """The wrong programs of the gate, and those that edits.py tries, can be made from the crates as they are."""
    crates = HERE.parent / "crates"
    gate, others = sorted(crates.glob("*/must-fail/*.edit")), sorted(edits.EDITS.glob("*/*.edit"))
    for edit in gate:
        check_edit(edit, edit.parent.parent)
    for edit in others:
        check_edit(edit, crates / edit.parent.name)
    return f"{len(gate) + len(others)} edits, {len(gate)} of them in the gate,"


# --apart leaves out the first two, which look outside this folder
CHECKS = [check_edits, check_programs, check_questions, check_edges, check_limits, check_faults, check_stored, check_order,
          check_round_trip, check_plans, check_sqlite]


def write():
    """Rewrites the generated files."""
    for name, content in stored_files():
        path = STORED / name
        path.parent.mkdir(parents=True, exist_ok=True)
        path.write_bytes(content)
        print(f"wrote stored/{name}, {len(content)} bytes")


def main(arguments):
    if arguments == ["--write"]:
        return write()
    if arguments not in ([], ["--apart"]):
        sys.exit("usage: check.py | check.py --apart | check.py --write")
    for check in CHECKS[2:] if arguments else CHECKS:
        try:
            print(f"{check.__name__[6:]}: {check()} agree", flush=True)
        except Differs as difference:
            print(f"{check.__name__[6:]} DIFFERS: {difference}")
            sys.exit(1)


if __name__ == "__main__":
    help_first(__doc__)
    main(sys.argv[1:])
