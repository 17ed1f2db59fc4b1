"""The answers to the questions under front/next/examples, worked out by SQLite.

Beside each question NAME.abe stands a statement NAME.sql that was written by hand in the manner of SQL. `answers()` runs it
over the question's tables and gives the rows that the command must print. Nothing of front/next/command is used here: the files
are read by Python's csv module, and the table FILES says by hand how each file is split and what its columns hold.

A question's head has a line on how it is asked in its folder, a file of standard input behind `<`:

  # asked: abe ask [--OPTION ..] NAME.abe [TABLE=]FILE .. [< FILE]

A table has the name before `=`, or its file's name without the suffix. Its columns have the names of the file's header. A
column of texts is TEXT. A column of numbers is INTEGER: each number times the column's power of ten in FILES, since SQLite
has no exact decimals. An empty cell is NULL.

A statement's first line says how the columns of its result are to be read, one word for each output column:

  -- columns: text, number, number/100, ratio/100

  text          one SQL column, a text
  number/N      one SQL column, divided by N; number alone is number/1
  ratio/N       two SQL columns, numerator and denominator: an exact fraction, divided by N; ratio alone is ratio/1

NULL is an absent value, and so is a ratio whose denominator is 0. An answer is a set of rows: equal rows stand once. The
rows ascend, first column first, absent first, numbers by exact value, texts by code point.

`python3 front/next/checks/by_sql.py` prints every question with its rows.
"""

import csv
import shlex
import sqlite3
import sys
from decimal import Decimal
from fractions import Fraction
from pathlib import Path
from typing import NamedTuple

EXAMPLES = Path(__file__).resolve().parent.parent / "examples"
ASKED = "# asked: abe ask "
COLUMNS = "-- columns: "

# Of each file: what splits its cells, and of each column `text` or the power of ten that makes its numbers whole.
FILES = {
    "pans.csv": (",", "1"),
    "samples.csv": (",", "1 1 10"),
    "company/division.csv": (",", "text text 1"),
    "company/department.csv": (",", "text text text"),
    "company/employee.csv": (",", "text 1 text 1 text"),
    "company/item.csv": (",", "text text 100"),
    "company/sells.csv": (",", "text text"),
    "laboratory/lab-2024.csv": (";", "1 text 100 100 1 1 text"),
    "laboratory/Tanks.CSV": (",", "text text text 10"),
    "laboratory/purity.tsv": ("\t", "1 text 100"),
    "laboratory/Pan log.csv": (",", "text 1 1 100 100 1000 10000 100 text text text 1"),
    "laboratory/notes.csv": (",", "text text text"),
}


class Answer(NamedTuple):
    """A question as it is asked in its folder, and the rows of its answer."""
    question: Path
    tables: list                    # arguments: FILE or TABLE=FILE, - for standard input
    options: list
    standard_input: Path | None
    rows: list                      # of lists of Fraction | str | None


def asked(question):
    """Tables, options and file of standard input in the head of a question."""
    lines = [line for line in question.read_text(encoding="utf-8").splitlines() if line.startswith(ASKED)]
    if len(lines) != 1:
        raise ValueError(f"{question}: one line {ASKED}.. expected")
    words, given = shlex.split(lines[0].removeprefix(ASKED)), None
    if "<" in words:
        *words, _, given = words
    options = [word for word in words if word.startswith("--")]
    name, *tables = [word for word in words if word not in options]
    if name != question.name:
        raise ValueError(f"{question}: asked as {name}")
    return tables, options, question.parent / given if given else None


def cell_value(cell, kind):
    """A text, a number times its column's power of ten, or None for an empty cell."""
    cell = cell.strip()
    if not cell or kind == "text":
        return cell or None
    number = Decimal(cell) * int(kind)
    if number != int(number):
        raise ValueError(f"{cell} times {kind} is not whole")
    return int(number)


def quoted(name):
    return '"' + name.replace('"', '""') + '"'


def load(base, name, path):
    """Makes a table of a file."""
    delimiter, kinds = FILES[path.relative_to(EXAMPLES).as_posix()]
    kinds = kinds.split()
    with open(path, encoding="utf-8-sig", newline="") as file:
        header, *rows = [row for row in csv.reader(file, delimiter=delimiter, strict=True) if row]
    types = ", ".join(f"{quoted(column)} {'TEXT' if kind == 'text' else 'INTEGER'}"
                      for column, kind in zip(header, kinds, strict=True))
    base.execute(f"CREATE TABLE {quoted(name)} ({types})")
    base.executemany(f"INSERT INTO {quoted(name)} VALUES ({', '.join('?' * len(kinds))})",
                     [[cell_value(*pair) for pair in zip(row, kinds, strict=True)] for row in rows])


def read_value(values, word):
    """The next output value of a row of SQL columns, by its word of the head."""
    kind, _, scale = word.partition("/")
    value = next(values)
    if kind == "text":
        if not isinstance(value, str | None):
            raise ValueError(f"{value!r} is no text")
        return value
    denominator = {"number": lambda: 1, "ratio": lambda: next(values)}[kind]()
    if value is None or not denominator:
        return None
    return Fraction(value, denominator * int(scale or 1))


def result_row(columns, words):
    """A row of the answer, for which all SQL columns are used up."""
    values = iter(columns)
    row = tuple(read_value(values, word) for word in words)
    if list(values):
        raise ValueError(f"{columns} has columns left over")
    return row


def ascending(row):
    """What rows are ordered by: an absent value is before all others."""
    return [() if value is None else (value,) for value in row]


def answer(question):
    """A question with the rows that SQLite finds."""
    tables, options, given = asked(question)
    statement = question.with_suffix(".sql").read_text(encoding="utf-8")
    head = statement.splitlines()[0]
    if not head.startswith(COLUMNS):
        raise ValueError(f"{question.with_suffix('.sql')}: the first line must be {COLUMNS}..")
    words = head.removeprefix(COLUMNS).split(", ")
    base = sqlite3.connect(":memory:")
    try:
        for table in tables:
            name, _, file = table.rpartition("=")
            path = given if file == "-" else question.parent / file
            load(base, name or path.stem, path)
        rows = {result_row(columns, words) for columns in base.execute(statement)}
    finally:
        base.close()
    return Answer(question, tables, options, given, [list(row) for row in sorted(rows, key=ascending)])


def answers():
    """Every question under front/next/examples with its answer."""
    for question in sorted(EXAMPLES.rglob("*.abe")):
        yield answer(question)


def main():
    for each in answers():
        given = ["<", each.standard_input.name] if each.standard_input else []
        print(" ".join([each.question.relative_to(EXAMPLES).as_posix(), *each.options, *each.tables, *given]))
        for row in each.rows:
            print("  " + "  ".join("-" if value is None else str(value) for value in row))


if __name__ == "__main__":
    if sys.argv[1:]:
        sys.exit(__doc__)
    main()
