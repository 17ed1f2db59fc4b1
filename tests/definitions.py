#!/usr/bin/env python3
"""Sets the definitions of crate `model` against the evaluator: by hand, minutes for some thousand jobs.

    python3 tests/definitions.py [SEED COUNT]

Without arguments the stored streams are taken, else COUNT fresh jobs of SEED. Each job becomes an equation between what
`answer_of` and `written_of` compute from its words and bytes and what the evaluator gives, and each stored call of the
index one about `index_number` and `index_after`, in a copy of the crate in a temporary folder; the prover checks them
all. Jobs of many trials or long data are left out: definitions compute slowly. Needs `rt`. Status 1 where one fails.
"""

import collections
import pathlib
import shutil
import subprocess
import sys
import tempfile

import evaluator
import format as streams
import generate
from usage import help_first

ROOT = pathlib.Path(__file__).resolve().parent.parent
STORED = ROOT / "tests" / "stored"
MOST_TRIALS, MOST_WORDS, MOST_BYTES = 400, 300, 900
HEAD = """use Prim.Native.Nat.{ℕ}
use mathlib.Core.List.{List, [], ◌∷◌}
use mathlib.Core.Path.{◌≡◌, refl}
use lib.IntN.{ℤ, pos, negsuc}
use lib.ListN.{length}
use Rattle.model.specs.Answer.{answer_of, written_of}
use Rattle.model.specs.Index.{index_number, index_after}
use Rattle.model.specs.Refusal.{Lengths}
use Rattle.model.specs.declared.Answer.{Answer}
use Rattle.model.proofs.Opens.{opens}

run : Lengths → List ℤ → List ℕ → List ℕ → ℕ → Answer × List ℤ
run l d qs ps budget = (answer_of l d qs ps budget, written_of l d qs ps budget)

index : List ℤ → ℕ → ℕ → List ℕ → ℕ × List ℕ
index d t c l = (index_number d t c (length l), index_after d t c l)
"""


def integer(x):
    return f"pos {x}" if x >= 0 else f"negsuc {-x - 1}"


def items(texts):
    return "(" + " ∷ ".join([*texts, "[]"]) + ")"


def record(names, figures):
    return "record { " + "; ".join(f"{name} = {figure}" for name, figure in zip(names, figures)) + " }"


def job_equation(place, job, answer):
    """The equation of one job."""
    words = [word for row in answer.row_list for value in row for word in value]
    lengths = record(["result", "sets", "files", "indexes"], job.lengths)
    figures = record(["number", "rows", "columns", "trials"],
                     [answer.number, answer.rows, answer.columns, answer.trials])
    return (f"\njob{place} : run ({lengths}) {items(map(integer, job.data))} {items(map(str, job.question))}"
            f" {items(map(str, job.plan))} {job.budget} ≡ ({figures}, {items(map(integer, words))})\n"
            f"unfolding opens run\njob{place} = refl\n")


def index_equation(place, call):
    """The equation of one call of the index, over a buffer of sevens."""
    data, table, column, length = call
    number, words = evaluator.index(data, table, column, [7] * length)
    return (f"\nindex{place} : index {items(map(integer, data))} {table} {column} {items(['7'] * length)}"
            f" ≡ ({number}, {items(map(str, words))})\nunfolding opens index\nindex{place} = refl\n")


def taken_jobs(arguments):
    """The jobs asked for that the definitions can compute, each with the evaluator's answer."""
    if arguments:
        jobs = generate.random_jobs(int(arguments[0]), int(arguments[1]))
    else:
        jobs = [job for name in ["questions", "limits", "random", "joined", "absent"]
                for job in streams.jobs_of((STORED / f"{name}.stream").read_bytes())]
    pairs = [(job, evaluator.run_job(job)) for job in jobs]
    return [(job, answer) for job, answer in pairs
            if answer.trials <= MOST_TRIALS and len(job.data) <= MOST_WORDS and len(job.question) <= MOST_BYTES]


def main(arguments):
    jobs = taken_jobs(arguments)
    calls = [call for call in streams.index_calls_of((STORED / "indexes.stream").read_bytes())
             if len(call[0]) <= MOST_WORDS]
    text = HEAD + "".join(job_equation(place, *pair) for place, pair in enumerate(jobs))
    text += "".join(index_equation(place, call) for place, call in enumerate(calls))
    with tempfile.TemporaryDirectory() as folder:
        crate = pathlib.Path(folder) / "crates" / "model"
        shutil.copytree(ROOT / "crates" / "model", crate, ignore=shutil.ignore_patterns("out", "must-fail"))
        (pathlib.Path(folder) / "crates.txt").write_text("model:\n")
        (crate / "proofs" / "Computed.antt").write_text(text)
        with (crate / "proofs" / "Lib.antt").open("a") as lib:
            lib.write("pub mod Computed\n")
        checked = subprocess.run(["rt", "check"], cwd=crate, capture_output=True, text=True)
    numbers = collections.Counter(answer.number for _, answer in jobs)
    print(f"{len(jobs)} jobs by number {dict(sorted(numbers.items()))}, {len(calls)} calls of the index")
    if "logic=proved" not in checked.stdout + checked.stderr:
        print("\n".join(line for line in (checked.stdout + checked.stderr).split("\n") if "Computed" in line)[:4000])
        sys.exit(1)
    print("the definitions agree")


if __name__ == "__main__":
    help_first(__doc__)
    main(sys.argv[1:])
