"""The data slice: its layout (cause 3), its values (cause 4), its tables, and the order of an index."""

from typing import NamedTuple

MOST_WORDS = 16_384
MOST_TABLES = 8
MOST_COLUMNS = 8
MOST_ROWS = 256
LARGEST_VALUE = 1_000_000


class Table(NamedTuple):
    columns: int
    rows: list      # of tuples, one value for each column


def directory(data):
    """The (columns, rows) of each table, or None if a count is wrong or words are missing ("Tables")."""
    if not data or not 1 <= data[0] <= MOST_TABLES:
        return None
    if len(data) < 1 + 2 * data[0]:
        return None
    counts = [(data[1 + 2 * t], data[2 + 2 * t]) for t in range(data[0])]
    for columns, rows in counts:
        if not 1 <= columns <= MOST_COLUMNS or not 0 <= rows <= MOST_ROWS:
            return None
    return counts


def laid_out(data):
    """Counts in their ranges, the rows after the directory, nothing after, at most 16,384 words ("Tables")."""
    counts = directory(data)
    if counts is None or len(data) > MOST_WORDS:
        return False
    return len(data) == 1 + 2 * len(counts) + sum(columns * rows for columns, rows in counts)


def values_in_range(data):
    """Every value of a well laid out slice is from -1,000,000 to 1,000,000 ("Tables")."""
    cells = data[1 + 2 * data[0]:]
    return all(-LARGEST_VALUE <= value <= LARGEST_VALUE for value in cells)


def tables_of(data):
    """The tables of a well laid out slice: table by table, row by row, columns in order ("Tables")."""
    tables, at = [], 1 + 2 * data[0]
    for columns, rows in directory(data):
        tables.append(Table(columns, [tuple(data[at + r * columns:at + (r + 1) * columns]) for r in range(rows)]))
        at += columns * rows
    return tables


def index_order(table, column):
    """The row numbers ordered by value, then row number ("Plan and trials", last paragraph)."""
    return sorted(range(len(table.rows)), key=lambda row: (table.rows[row][column], row))
