"""Tests abe: the example, every question under tests/questions, mistakes in files, and the words of refusals.

Prints a line for each check; status 1 if one fails. The program named budgeted is proved and built first where it
is not there (`rt run` in crates/budgeted).
"""

import subprocess
import sys
import tempfile
from collections import Counter
from dataclasses import replace
from fractions import Fraction
from pathlib import Path

sys.dont_write_bytecode = True
HERE = Path(__file__).resolve().parent
TESTS = HERE.parent / "tests"
sys.path[:0] = [str(HERE), str(TESTS)]

import format as fmt                                                    # noqa: E402
from answering import answered, large_words                             # noqa: E402
from causes import CAUSES, PAPER, subtree_of                            # noqa: E402
from naive import question as read                                      # noqa: E402
from naive.matching import Matching                                     # noqa: E402
from naive.tables import laid_out, tables_of                            # noqa: E402
from printing import decimal_of, table_text                             # noqa: E402
from question import Question                                           # noqa: E402
from usage import help_first                                            # noqa: E402

FAILED = []


def check(name, passed, detail=""):
    print(f"{'ok  ' if passed else 'FAIL'} {name}" + (f": {detail}" if detail else ""))
    if not passed:
        FAILED.append(name)


def abe(*arguments, folder=HERE):
    done = subprocess.run([sys.executable, str(HERE / "abe"), *arguments], cwd=folder, capture_output=True,
                          encoding="utf-8", timeout=600)
    return done.returncode, done.stdout, done.stderr


# The example.

def example():
    expected = (HERE / "examples/brix.out").read_text()
    status, out, err = abe("examples/brix.abe", "examples/pans.csv", "examples/samples.csv")
    check("example brix", (status, out, err) == (0, expected, ""))
    shown = "".join(f"    {line}\n" for line in expected.splitlines())
    check("example as README.md shows it", shown in (HERE / "README.md").read_text())


# The questions under tests/questions.

def value_of(field):
    return None if field == "-" else Fraction(field)


def printed_rows(lines):
    """The values of printed rows; after a fraction its decimal stands, which must be the fraction's."""
    rows = []
    for line in lines:
        row, fields = [], line.split()
        while fields:
            row.append(value_of(fields.pop(0)))
            if row[-1] is not None and row[-1].denominator != 1:
                decimal = fields.pop(0)
                error = abs(value_of(decimal.removeprefix("~")) - row[-1])
                if error > Fraction(1, 2_000_000) if decimal[0] == "~" else error != 0:
                    raise ValueError(f"{decimal} beside {row[-1]}")
        rows.append(row)
    return rows


def figures_of(status, out):
    """Number, rows, trials and the values that abe printed."""
    lines = out.splitlines()
    if status == 1:
        return int(lines[0].split(":")[0].removeprefix("no ")), 0, None, []
    rows, _, trials, _ = lines[-1].replace(",", "").split(" ")
    return 0, int(rows), int(trials), printed_rows(lines[1:-1])


def question(path):
    first, *lines = path.with_suffix(".out").read_text().splitlines()
    number, rows, _, trials = map(int, first.split())
    expected = [[value_of(field) for field in line.split()] for line in lines]
    status, out, err = abe(str(path))
    try:
        found = figures_of(status, out)
        same = found == (number, rows, trials if number == 0 else None, expected) and err == ""
    except ValueError:
        same = False
    told = number == 0 or (out.count("\n") == 1 and PAPER[number] not in out)
    check(f"question {path.stem}", same and told, out.splitlines()[0] if number else out.splitlines()[-1])


# Mistakes in files, and further refusals. Each: name, files, arguments, status, what is printed.

BRIX = (HERE / "examples/brix.abe").read_text()
PANS, SAMPLES = "pan\n1\n2\n", "sample,pan,brix\n11,1,910\n12,1,913\n"
ALL = ("q.abe", "pans.csv", "samples.csv")
DEEP = "block a\n t (c = A)\n give A, count(b)\n" + "".join(
    f"block {name} in {chr(ord(name) - 1)}\n t (c = {name.upper()})\n give {name.upper()}\n" for name in "bcde")
WIDE = "block top\n t (c = A)\n t (c = B)\n give A, B\n"


def rows_of(count):
    return "c\n" + "".join(f"{number}\n" for number in range(count))


CASES = [
    ("a cell missing", {"samples.csv": "sample,pan,brix\n11,1,910\n12,1\n"}, ALL, 2,
     "samples.csv, line 3: 2 cells, but the header has 3 columns"),
    ("a cell too many", {"pans.csv": "pan\n1,2\n"}, ALL, 2,
     "pans.csv, line 2: 2 cells, but the header has 1 column"),
    ("no whole number", {"pans.csv": "pan\n1\n2.5\n"}, ALL, 2,
     "pans.csv, line 3: pan: a whole number expected, not '2.5'"),
    ("an empty cell", {"samples.csv": "sample,pan,brix\n11,,910\n"}, ALL, 2, "samples.csv, line 2: pan is empty"),
    ("an empty line", {"pans.csv": "pan\n1\n\n2\n"}, ALL, 2, "pans.csv, line 3: an empty line among the rows"),
    ("over 32 bits", {"pans.csv": "pan\n3000000000\n"}, ALL, 2,
     "pans.csv, line 2: pan: 3000000000 is not from -2147483648 to 2147483647"),
    ("no header", {"pans.csv": ""}, ALL, 2, "pans.csv, line 1: a header line with the columns' names expected"),
    ("numbers for a header", {"pans.csv": "1\n2\n"}, ALL, 2,
     "pans.csv, line 1: '1' cannot be a column's name: letters, digits and underscores, a letter first"),
    ("a keyword for a column", {"pans.csv": "plan\n1\n"}, ALL, 2,
     "pans.csv, line 1: plan is a word of the notation and cannot be a column's name"),
    ("a column twice", {"samples.csv": "sample,pan,pan\n"}, ALL, 2, "samples.csv, line 1: two columns named pan"),
    ("an open quote", {"pans.csv": "pan\n\"1\n"}, ALL, 2, "pans.csv, line 2: unexpected end of data"),
    ("not UTF-8", {"pans.csv": b"pan\n1\n\xff\n"}, ALL, 2, "pans.csv, line 3: not text in UTF-8"),
    ("a file missing", {}, ("q.abe", "pots.csv"), 2, "pots.csv: No such file or directory"),
    ("a file not .csv", {"pans.txt": PANS}, ("q.abe", "pans.txt"), 2, "pans.txt: a table's file ends in .csv"),
    ("a file twice", {}, ("q.abe", "pans.csv", "pans.csv"), 2, "pans.csv: a second table pans"),
    ("a file's name", {"my pans.csv": PANS}, ("q.abe", "my pans.csv"), 2,
     "my pans.csv: 'my pans' cannot be a table's name: letters, digits and underscores, a letter first"),
    ("a table left out", {}, ("q.abe", "pans.csv"), 2,
     "q.abe, line 6: no table samples, neither above nor among the CSV files"),
    ("a table in both", {"q.abe": "table pans (pan)\n 1\n" + BRIX}, ALL, 2, "q.abe, line 1: a second table pans"),
    ("no such column", {"pans.csv": "pot\n1\n"}, ALL, 2, "q.abe, line 3: table pans has no column pan"),
    ("a sign not read", {"q.abe": "block top\n  pans (pan = %)\n"}, ALL, 2, "q.abe, line 2: cannot read '%)'"),
    ("spaces, quotes, signs, CRLF and a BOM", {"pans.csv": b"\xef\xbb\xbf\"pan\"\r\n +1 \r\n\"-2\"\r\n\r\n",
                                               "q.abe": "block top\n pans (pan = P)\n give P\n"}, ALL, 0,
     " P\n-2\n 1\n2 rows, 2 trials"),
    ("a table in the file, one in CSV", {"q.abe": "table pans (pan)\n 1\n" + BRIX}, ("q.abe", "samples.csv"), 0,
     "pan  samples  ave(each.brix)\n  1        2   1823/2  911.5\n1 row, 3 trials"),
    ("a pan without samples", {"pans.csv": "pan\n3\n1\n"}, ALL, 0,
     "pan  samples  ave(each.brix)\n  1        2   1823/2  911.5\n  3        0        -\n2 rows, 4 trials"),
    ("absent first", {"pans.csv": "pan\n1\n3\n", "q.abe": BRIX.replace("P as pan, count(each) as samples, ", "")}, ALL,
     0, "ave(each.brix)\n      -\n 1823/2  911.5\n2 rows, 4 trials"),
    ("no rows", {"q.abe": "block top\n pans (pan = P)\n where P > 9\n give P\n"}, ALL, 0, "P\n0 rows, 2 trials"),
    ("257 rows", {"t.csv": rows_of(257), "q.abe": "block top\n t (c = A)\n give A\n"}, ("q.abe", "t.csv"), 1,
     "no 3: t has 257 rows, a table has at most 256"),
    ("nine columns", {"t.csv": "a,b,c,d,e,f,g,h,i\n", "q.abe": "block top\n t (a = A)\n give A\n"},
     ("q.abe", "t.csv"), 1, "no 3: t has 9 columns, a table has 1 to 8"),
    ("no table", {"q.abe": "block top\n give count(each)\n"}, ("q.abe",), 2, "q.abe, line 2: no block each"),
    ("no block", {"q.abe": "# nothing\n"}, ALL, 1, "no 6: no block, a question has 1 to 5"),
    ("no table and no block", {"q.abe": ""}, ("q.abe",), 1, "no 3: no table, 1 to 8 are taken"),
    ("five levels", {"t.csv": rows_of(2), "q.abe": DEEP}, ("q.abe", "t.csv"), 1,
     "no 7: block e is at level 5, the deepest is 4"),
    ("an absent output column", {"q.abe": BRIX.replace("each.brix", "each.2")}, ALL, 1,
     "no 7: ave(each.2) in block top: block each gives 2 columns, numbered from 0"),
    ("a variable in no relation row", {"q.abe": "block top\n pans (pan = P)\n give Q\n"}, ALL, 1,
     "no 8: variable Q stands in no relation row of block top"),
    ("index on a variable", {"q.abe": BRIX.replace("top file", "top index pan")}, ALL, 1,
     "no 11: the plan of block top: index wants a constant or a fixed variable at column pan"),
    ("plan bytes", {"q.abe": BRIX.replace("plan top file, each merging pan", "plan hex 50 4c 00 00")}, ALL, 1,
     "no 11: the plan has 4 bytes, four for each block are needed"),
    ("over 65,536 bytes", {**{f"t{number}.csv": "a,b,c,d,e,f,g,h\n" + "1,2,3,4,5,6,7,8\n" * 256 for number in range(8)},
                           "q.abe": "block top\n t0 (a = A)\n give A\n"},
     ("q.abe", *(f"t{number}.csv" for number in range(8))), 2,
     "bad job: the tables would take 65,604 bytes, at most 65,536 are read"),
    ("17 by 17 and a budget", {"t.csv": rows_of(17), "q.abe": WIDE + "budget 305\n"}, ("q.abe", "t.csv"), 1,
     "no 12: over the budget of 305 trials"),
    ("17 by 17 within the budget", {"t.csv": rows_of(17), "q.abe": WIDE + "budget 306\n"}, ("q.abe", "t.csv"), 1,
     "no 13: a set of block top has over 256 rows"),
]


def case(name, files, arguments, status, expected):
    with tempfile.TemporaryDirectory() as folder:
        for file, content in {"q.abe": BRIX, "pans.csv": PANS, "samples.csv": SAMPLES, **files}.items():
            (Path(folder) / file).write_bytes(content if isinstance(content, bytes) else content.encode())
        found, out, err = abe(*arguments, folder=folder)
    told = err if status == 2 else out
    check(f"files: {name}", found == status and told == expected + "\n" and out + err == told,
          told.splitlines()[-1 if status == 0 else 0] if told else "")


# Words and counts, on the stored jobs.

def element(found):
    if isinstance(found, read.Aggregate):
        return fmt.aggregate(*found)
    kinds = {read.Empty: fmt.EMPTY, read.Constant: fmt.CONSTANT, read.Variable: fmt.VARIABLE, read.Fixed: fmt.FIXED}
    return kinds[type(found)], found[0] if found else 0


def question_of(job):
    """A stored job as a question with invented names, or None where its bytes are not those of one."""
    if not laid_out(job.data):
        return None
    try:
        blocks = read.read_question(job.question)
    except read.Malformed:
        return None
    return Question(
        [(f"t{number}", [f"c{column}" for column in range(table.columns)], [list(row) for row in table.rows])
         for number, table in enumerate(tables_of(job.data))],
        [fmt.BlockText(block.parent, [(row.table, [element(entry) for entry in row.entries])
                                      for row in block.relation_rows],
                       [(condition.operator, element(condition.left), element(condition.right))
                        for condition in block.conditions],
                       [element(found) for found in block.output]) for block in blocks],
        [f"b{number}" for number in range(len(blocks))],
        [[str(column) for column in range(len(block.output))] for block in blocks],
        {}, job.plan, job.budget, tuple(job.lengths))


def stored_jobs():
    """Each stored job, with the question that it is, its number and its trials."""
    for name in ("questions", "limits", "random", "joined", "absent"):
        lines = (TESTS / f"stored/{name}.answers").read_text().splitlines()
        for job in fmt.jobs_of((TESTS / f"stored/{name}.stream").read_bytes()):
            number, rows, _, trials = map(int, lines.pop(0).split())
            del lines[:rows]
            found = question_of(job)
            if found is not None:
                yield job, found, number, trials


def stored_words():
    """The first function that finds a cause is that of the job's number."""
    jobs, wrong, met = 0, 0, Counter()
    for _, found, number, _ in stored_jobs():
        first = next((cause for cause in CAUSES if CAUSES[cause](found)), 0)
        wrong += first != (number if number in CAUSES else 0)
        met[number] += 1
        jobs += 1
    check("words: the first cause found is the number's", wrong == 0 and set(met) >= {0, 1, 2, 4, 6, 7, 8, 9, 10, 11},
          f"{jobs} stored jobs, {wrong} wrong")


def stored_answers():
    """Each stored job gets its number and its trials, under its own budget; those with short buffers are left out."""
    jobs = wrong = 0
    for _, found, number, trials in stored_jobs():
        if number not in (1, 2):
            jobs += 1
            wrong += answered(found)[::2] != (number, None if number else trials)
    check("budgets: numbers and trials of the stored jobs", wrong == 0, f"{jobs} stored jobs, {wrong} wrong")


def large_blocks(matching, number, binding):
    """The blocks with an evaluated set over 256 rows, by the evaluator."""
    found = {number} if len(matching.set_of(number, binding)) > 256 else set()
    for match in matching.passing(number, binding):
        for child in matching.child_sets(number, match):
            found |= large_blocks(matching, child, match)
    return found


def stored_large():
    """The block told with number 13 has such a set, and none below it has."""
    jobs = wrong = 0
    for job, found, number, _ in stored_jobs():
        if number == 13:
            blocks = read.read_question(job.question)
            large = large_blocks(Matching(blocks, tables_of(job.data)), 0, {})
            words = [f"a set of block b{place} has over 256 rows" for place in large
                     if not large & (subtree_of(found.blocks, place) - {place})]
            jobs += 1
            wrong += large_words(found) not in words
    check("words: the block with a large set", jobs > 0 and wrong == 0, f"{jobs} stored jobs, {wrong} wrong")


def short_row():
    """An entry count that the notation cannot write."""
    found = next(found for _, found, number, _ in stored_jobs() if number == 0 and found.blocks[0].relation_rows
                 and len(found.blocks[0].relation_rows[0][1]) > 1)
    block = found.blocks[0]
    table, entries = block.relation_rows[0]
    cut = replace(found, blocks=[replace(block, relation_rows=[(table, entries[:-1])]), *found.blocks[1:]])
    words = f"t{table} has {len(entries)} columns, the row has {len(entries) - 1}"
    check("words: a short row", answered(cut)[0] == 7 and CAUSES[7](cut) == words, words)


def decimals():
    cases = {(1823, 2): "911.5", (1, 256): "0.00390625", (-1, 4): "-0.25", (2, 3): "~0.666667", (-1, 3): "~-0.333333",
             (16_777_215_999_999, 256): "65535999999.99609375", (2_999_999, 3): "~999999.666667"}
    wrong = [case for case, text in cases.items() if decimal_of(*case) != text]
    check("decimals", not wrong, f"{len(cases)} ratios" if not wrong else str(wrong))


def absents():
    """An absent value stands alone: among ratios, among wholes, by itself."""
    one, half, none = (1, 1), (-1, 2), (0, 0)
    cases = {(none, half): "m\n   -\n-1/2  -0.5", (none, one): "m\n-\n1", (none,): "m\n-"}
    wrong = [case for case, text in cases.items()
             if [line.rstrip() for line in table_text(["m"], [[value] for value in case], 0).splitlines()[:-1]]
             != text.splitlines()]
    check("absent values", not wrong, f"{len(cases)} columns" if not wrong else str(wrong))


def main():
    example()
    for path in sorted((TESTS / "questions").glob("*.abe")):
        question(path)
    for each in CASES:
        case(*each)
    decimals()
    absents()
    stored_words()
    stored_answers()
    stored_large()
    short_row()
    print(f"{len(FAILED)} failed" if FAILED else "all passed")
    return 1 if FAILED else 0


if __name__ == "__main__":
    help_first(__doc__)
    sys.exit(main())
