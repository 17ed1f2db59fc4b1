"""The questions under front/next/examples: the rows are those that SQLite gives (by_sql.py), the table printed is the one stored
beside the question, and README.md shows the first as it is.

`python3 front/next/test.py examples --write` is not there on purpose: an answer is stored by hand, `abe ask .. > NAME.out`, once
SQLite has confirmed its rows.
"""

import json
from fractions import Fraction

from .by_sql import answers
from .common import EXAMPLES, FRONT, abe, check, program


def value_of(field, expected):
    """A field of JSON as the value that is expected: a text, or an exact fraction."""
    return field if field is None or isinstance(expected, str) else Fraction(field)


def rows_of(text, expected):
    """The rows in JSON, without the decimals beside fractions."""
    rows = [[field for name, field in row.items() if not name.endswith(" decimal")]
            for row in json.loads(text, parse_float=str, parse_int=str)]
    if [len(row) for row in rows] != [len(row) for row in expected]:
        return None
    return [[value_of(*pair) for pair in zip(*pairs)] for pairs in zip(rows, expected)]


def example(answer):
    folder, name = answer.question.parent, answer.question.stem
    given = (folder / answer.standard_input).read_bytes() if answer.standard_input else b""
    asked = [*answer.options, answer.question.name, *answer.tables]
    status, out, err = abe("ask", "--format", "json", *asked, folder=folder, given=given)
    check(f"example {name} as SQLite has it", status == 0 and rows_of(out, answer.rows) == answer.rows,
          err.splitlines()[-1] if err else "")
    stored = answer.question.with_suffix(".out")
    found = abe(*asked, folder=folder, given=given)
    check(f"example {name} as stored", stored.exists() and found[:2] == (0, stored.read_text(encoding="utf-8")))
    by_file = abe("--plan", "file", *asked, folder=folder, given=given)
    check(f"example {name} by file", by_file[:2] == found[:2])
    doubted = abe("check", *asked, folder=folder, given=given)
    check(f"example {name} has no mistakes", doubted[0] == 0 and doubted[1] == "")


def shown_in(document, text):
    """Whether a document shows a text, indented."""
    return "".join(f"    {line}\n" for line in text.splitlines()) in document.read_text(encoding="utf-8")


def first_example():
    """The example that the documents begin with, by the program of its own."""
    expected = (EXAMPLES / "brix.out").read_text()
    asked = "brix.abe", "pans.csv", "samples.csv"
    status, out, err = program(*asked, folder=EXAMPLES)
    check("example brix by the program", (status, out) == (0, expected), err.splitlines()[-1] if err else "")
    question = (EXAMPLES / "brix.abe").read_text().split("\n", 2)[2]
    check("example as README.md shows it", shown_in(FRONT / "README.md", question)
          and shown_in(FRONT / "README.md", out + err))


def run():
    first_example()
    found = list(answers())
    for answer in found:
        example(answer)
    questions = sorted(EXAMPLES.rglob("*.abe"))
    check("each example has its SQL", sorted(answer.question for answer in found) == questions, f"{len(questions)}")
