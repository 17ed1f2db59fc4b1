#!/usr/bin/env python3
"""What the program tables_test prints, by the evaluator.

    python3 tests/tables_expected.py | diff - crates/tables_test/stdout

The words of each line are made here anew, from what the line says; the numbers, the tables and the indexes are the
evaluator's, the ranges are counted.
"""

import evaluator
from naive.tables import directory, laid_out, tables_of, values_in_range
from usage import help_first

MOST = 2 ** 31 - 1
ROWS = [(3, 8, 5), (-1, 8, 5), (3, 8, -5), (0, 8, 5), (-1, 8, -5), (3, 8, 1_000_000)]


def check(data):
    return 3 if not laid_out(data) else 4 if not values_in_range(data) else 0


def say(what, answer):
    print(f"{what}: {answer}")


def equal_tables(what, count, columns, rows, words):
    """`count` tables of so many columns and rows, each cell 5."""
    data = [count] + [columns, rows] * count + [5] * (count * columns * rows)
    assert len(data) == words or what.startswith("0 "), what
    say(what, check(data[:words]))


def full_tables(what, rows, words, last=5):
    """Seven full tables and one of 8 columns and so many rows, cut or grown to `words`; word 16,376 is `last`."""
    data = [8] + [8, 256] * 7 + [8, rows] + [5] * (7 * 2048 + 8 * rows + 1)
    data[16_376] = last
    say(what, check(data[:words]))


def limits():
    equal_tables("0 tables", 0, 1, 1, 1)
    equal_tables("1 table", 1, 1, 1, 4)
    equal_tables("8 tables", 8, 1, 1, 25)
    equal_tables("9 tables", 9, 1, 1, 28)
    equal_tables("0 columns", 1, 0, 1, 3)
    equal_tables("1 column", 1, 1, 1, 4)
    equal_tables("8 columns", 1, 8, 1, 11)
    equal_tables("9 columns", 1, 9, 1, 12)
    equal_tables("0 rows", 1, 1, 0, 3)
    equal_tables("256 rows", 1, 1, 256, 259)
    equal_tables("257 rows", 1, 1, 257, 260)
    equal_tables("256 rows of 8 columns", 1, 8, 256, 2051)
    full_tables("16,377 words", 253, 16_377)
    full_tables("16,377 words, one missing", 253, 16_376)
    full_tables("16,377 words and one more", 253, 16_378)
    full_tables("16,385 words", 254, 16_385)
    full_tables("16,377 words, the last out of range", 253, 16_377, 1_000_001)
    full_tables("16,385 words, one out of range", 254, 16_385, 1_000_001)


def words():
    for value in (1_000_000, 1_000_001, -1_000_000, -1_000_001, -2 ** 31):
        say(f"value {value:,}", check([1, 1, 1, value]))
    say("value 1,000,001 and a word more", check([1, 1, 1, 1_000_001, 0]))
    data = [2, 1, 1, 1, 1, 3, 4]
    for count, what in enumerate(["no words", "first word alone", "directory cut after 2 words", None,
                                  "directory cut after 4 words", "directory alone", "a cell missing", "all words"]):
        if what:
            say(what, check(data[:count]))
    for tables, columns, rows, what in ((MOST, 1, 1, f"{MOST:,} tables"), (1, MOST, 1, f"{MOST:,} columns"),
                                        (1, 1, MOST, f"{MOST:,} rows"), (1, MOST, MOST, f"{MOST:,} columns and rows"),
                                        (-1, 1, 1, "-1 tables"), (1, -1, 1, "-1 columns"), (1, 1, -1, "-1 rows"),
                                        (1, 1, 2_000_000, "2,000,000 rows")):
        say(what, check([tables, columns, rows, 5]))


def read(what, tables, columns, rows, first):
    print(what)
    for name, figure in (("tables", tables), ("columns", columns), ("rows", rows), ("first cell", first),
                         ("down", columns), ("across", 1)):
        say(f"  {name}", figure)


def readers():
    """Counts and cells; a table's first cell lies behind the directory and the cells of the tables before it."""
    data = [2, 1, 2, 2, 2, 10, 11, 20, 21, 22, 23]
    counts = directory(data)
    for table, (columns, rows) in enumerate(counts):
        before = sum(c * r for c, r in counts[:table])
        read(f"table {table} of 2", 2, columns, rows, 1 + 2 * len(counts) + before)
    read("table 0 of no words", 0, 0, 0, 1)
    read(f"table 255 of {MOST:,}", MOST, 0, 0, 5 + 1)
    tables = tables_of(data)
    for table, row, column in ((0, 1, 0), (1, 0, 0), (1, 0, 1), (1, 1, 0), (1, 1, 1)):
        say(f"table {table}, row {row}, column {column}", tables[table].rows[row][column])
    say("table 1, row 2, column 0", 0)
    say("table 255, row 65,535, column 255", 0)


def indexed(what, data, table, column, length):
    number, after = evaluator.index(data, table, column, [7] * length)
    say(what, number)
    line(after + [7] * (9 - length))


def line(row_numbers):
    print("".join(f" {number}" for number in row_numbers))


def indexes():
    data = [2, 3, 6, 1, 0] + [value for row in ROWS for value in row]
    indexed("index of column 0", data, 0, 0, 9)
    indexed("index of column 1, all ties", data, 0, 1, 7)
    indexed("index of column 2, just room", data, 0, 2, 6)
    indexed("index of a table without rows", data, 1, 0, 0)
    indexed("index of column 3 of 3", data, 0, 3, 9)
    indexed("index of table 2 of 2", data, 2, 0, 9)
    indexed("index in 5 words for 6 rows", data, 0, 0, 5)
    indexed("index of an absent column in no words", data, 0, 255, 0)
    indexed("index of data under 4, table absent, no room", [1, 1, 1, 1_000_001], 9, 9, 0)
    indexed("index of data under 3", [1, 1, 1, 1_000_001, 5], 0, 0, 9)
    indexed("index of no data", [], 0, 0, 9)


def ranged(what, values, wanted):
    """The places of a value in an index: behind those of lower values, as many as have it."""
    lower = sum(value < wanted for value in values)
    say(what, f"{lower} {lower + values.count(wanted)}")


def ranges():
    values = [row[0] for row in ROWS]
    data = [1, 3, 6] + [value for row in ROWS for value in row]
    say("index for ranges", evaluator.index(data, 0, 0, [7] * 9)[0])
    for wanted in (-1, 0, 1, 3, -2, 4, 10 ** 15, -10 ** 15, 2 ** 32 + 3):
        ranged(f"range of {wanted:,}", values, wanted)
    ranged("range of 2 ^ 63 - 1", values, 2 ** 63 - 1)
    ranged("range of -2 ^ 63", values, -2 ** 63)
    values = [row * 7 % 23 for row in range(256)]
    number, after = evaluator.index([1, 1, 256] + values, 0, 0, [7] * 257)
    say("index of 256 rows", number)
    line(after)
    for wanted in (0, 11, 22, 23):
        ranged(f"range of {wanted} in 256 rows", values, wanted)


if __name__ == "__main__":
    help_first(__doc__)
    limits()
    words()
    readers()
    indexes()
    ranges()
