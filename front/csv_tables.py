"""Tables from CSV files: the file's name is the table's, the header line its columns, every cell a whole number."""

import csv
import io
import re
from pathlib import Path

from text.lines import KEYWORDS
from text.parser import TableText

NAME = re.compile(r"[A-Za-z][A-Za-z0-9_]*\Z")
NUMBER = re.compile(r"[+-]?[0-9]{1,18}\Z")
SMALLEST, LARGEST = -2**31, 2**31 - 1
MOST_COLUMNS = 255      # more cannot be written in a question's bytes; over 8 is refused with number 3


class Mistake(Exception):
    """What is wrong in a file, and where."""


def text_of(path):
    """The text of a file."""
    try:
        return Path(path).read_text(encoding="utf-8-sig")
    except OSError as error:
        raise Mistake(f"{path}: {error.strerror}") from error
    except UnicodeDecodeError as error:
        line = error.object[:error.start].count(b"\n") + 1
        raise Mistake(f"{path}, line {line}: not text in UTF-8") from error


def name_fault(name, what):
    """Why this cannot be a name of the notation, or None."""
    if name in KEYWORDS:
        return f"{name} is a word of the notation and cannot be {what} name"
    if not NAME.match(name):
        return f"{name!r} cannot be {what} name: letters, digits and underscores, a letter first"
    return None


def read_table(path):
    """The table in one CSV file."""
    def fail(line, message):
        raise Mistake(f"{path}, line {line}: {message}")

    reader = csv.reader(io.StringIO(text_of(path)), strict=True)
    records = []
    try:
        for cells in reader:
            records.append((reader.line_num, [cell.strip() for cell in cells]))
    except csv.Error as error:
        fail(reader.line_num, str(error))
    while records and records[-1][1] in ([], [""]):
        records.pop()
    if not records:
        fail(1, "a header line with the columns' names expected")
    line, columns = records[0]
    for column in columns or [""]:
        fault = name_fault(column, "a column's")
        if fault:
            fail(line, fault)
    for place, column in enumerate(columns):
        if column in columns[:place]:
            fail(line, f"two columns named {column}")
    if len(columns) > MOST_COLUMNS:
        fail(line, f"{len(columns)} columns")
    table = TableText(columns)
    for line, cells in records[1:]:
        if cells in ([], [""]):
            fail(line, "an empty line among the rows")
        if len(cells) != len(columns):
            fail(line, f"{count(len(cells), 'cell')}, but the header has {count(len(columns), 'column')}")
        for column, cell in zip(columns, cells):
            if not NUMBER.match(cell):
                fail(line, f"{column}: a whole number expected, not {cell!r}" if cell else f"{column} is empty")
            if not SMALLEST <= int(cell) <= LARGEST:
                fail(line, f"{column}: {cell} is not from {SMALLEST} to {LARGEST}")
        table.rows.append([int(cell) for cell in cells])
    return table


def read_tables(paths):
    """The tables of all files, by name, in the order given."""
    tables = {}
    for path in paths:
        if not path.endswith(".csv"):
            raise Mistake(f"{path}: a table's file ends in .csv")
        name = Path(path).name[:-len(".csv")]
        fault = name_fault(name, "a table's")
        if fault:
            raise Mistake(f"{path}: {fault}")
        if name in tables:
            raise Mistake(f"{path}: a second table {name}")
        tables[name] = read_table(path)
    return tables


def count(number, what):
    return f"{number} {what}" if number == 1 else f"{number} {what}s"
