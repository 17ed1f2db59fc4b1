#!/usr/bin/env python3
"""The lines of crate value_test, computed apart from it: fractions for values, a sorted list of tuples for a set. An
absent value (request No. 3) is None, in words 0 and 0.

Prints the whole expected output; `python3 tests/value_expected.py > crates/value_test/stdout` stores it.
"""
from bisect import bisect_left
from fractions import Fraction
from math import gcd
from usage import help_first

BOUND, ROWS = 10**15, 256          # numerators inside the bounds; rows of a set and greatest denominator
END = 16_777_216_000_000           # the greatest numerator of a result


def inside(v):
    return v == (0, 0) or abs(v[0]) <= BOUND and 1 <= v[1] <= ROWS


def text(v):
    return f"{v[0]}/{v[1]}"


def value_of(v):
    return None if v == (0, 0) else Fraction(*v)


def pair_of(q):
    return (0, 0) if q is None else (q.numerator, q.denominator)


def key_of(q):
    """What values are ordered by, absent first."""
    return (0,) if q is None else (1, q)


# ---- two values

OPERATORS = [("=", lambda a, b: a == b), ("!=", lambda a, b: a != b), ("<", lambda a, b: a < b),
             ("<=", lambda a, b: a <= b), (">", lambda a, b: a > b), (">=", lambda a, b: a >= b)]


def order_line(x, y):
    if not (inside(x) and inside(y)):
        told, answers = "outside", ["outside"] * 6
    else:
        a, b = value_of(x), value_of(y)
        told = "less" if key_of(a) < key_of(b) else "greater" if key_of(a) > key_of(b) else "equal"
        answers = ["yes" if None not in (a, b) and test(a, b) else "no" for _, test in OPERATORS]
    tests = " ".join(f"{name} {answer}" for (name, _), answer in zip(OPERATORS, answers))
    return f"order {text(x)} {text(y)} {told} {tests}"


def orders():
    values = [(n, d) for n in (-BOUND, -END, 0, 1, END, BOUND) for d in (1, 2, 255, 256)]
    for x in values:
        for y in values:
            yield order_line(x, y)
    for x, y in [((2, 4), (1, 2)), ((1, 2), (2, 4)), ((-128, 256), (-1, 2)), ((255, 255), (256, 256)),
                 ((END, 256), (END // 256, 1)), ((127, 256), (1, 2)), ((129, 256), (1, 2))]:
        yield order_line(x, y)
    one, none = (1, 1), (0, 0)
    for x, y in [((BOUND + 1, 1), one), (one, (-BOUND - 1, 1)), ((0, 257), one), (one, (1, 0)), ((1, -1), one),
                 ((-2**63, 1), one), (one, (2**63 - 1, 256)), ((BOUND + 1, 1), none), (none, (-BOUND - 1, 1)),
                 ((-2**63, 1), none), (none, (2**63 - 1, 256))]:
        yield order_line(x, y)


def absents():
    """Absent, four values that are like it and outside the bounds, and three inside: each against each."""
    values = [(0, 0), (1, 0), (-1, 0), (0, -1), (0, 257), (1, 256), (-BOUND, 1), (BOUND, 1)]
    for x in values:
        for y in values:
            yield order_line(x, y)


def past_the_last():
    """Operators over 5, which no accepted question has, are read as the last."""
    one, none = (1, 1), (0, 0)
    for x, y in [(one, (2, 1)), (one, one), (one, (1, 2)), (none, one), (one, none), (none, none), ((1, 257), one)]:
        answer = order_line(x, y).split()[-1]
        yield f"past the last {text(x)} {text(y)} 6 {answer} 255 {answer}"


# ---- averages and divisors

def average(total, count):
    if count == 0:
        return (0, 0)
    if count > ROWS or abs(total) > ROWS * BOUND:
        return None
    return pair_of(Fraction(total, count))


def averages():
    most = ROWS * BOUND
    for total in (-2**63, -most - 1, -most, -END, -1, 0, 1823, END, most, most + 1):
        for count in (0, 1, 2, 3, 255, 256, 257, 2**64 - 1):
            v = average(total, count)
            yield f"average {total} over {count} is {text(v) if v else 'outside'}"


def empties():
    for f in (0, 1, 2, 3, 4, 5, 255):
        yield f"empty {f} is {'0/1' if f < 2 else '0/0'}"


def divisors():
    for a, b in [(0, 0), (0, 256), (256, 0), (END, 256), (END, 255), (2**64 - 1, 255), (2**64 - 1, 2**64 - 2),
                 (12200160415121876738, 7540113804746346429)]:
        yield f"gcd {a} {b} is {gcd(a, b)}"


# ---- sets

class Set:
    """Rows as tuples of values in ascending order; room: how many values the words hold."""

    def __init__(self, columns, room):
        self.columns, self.room, self.rows = columns, room, []
        self.spoiled = set()                                    # columns with a value outside the bounds

    def insert(self, row, count):
        """What becomes of a row that is put among count rows."""
        if count > ROWS or count * self.columns > self.room:
            return "refused"
        if not all(inside(v) for v in row):
            return "outside"
        values = tuple(map(value_of, row))
        k = bisect_left(self.rows, row_key(values), key=row_key)
        if k < len(self.rows) and self.rows[k] == values:
            return f"there {k}"
        if count == ROWS:
            return "large"
        if (count + 1) * self.columns > self.room:
            return "refused"
        self.rows.insert(k, values)
        return f"new {k}"

    def aggregate(self, columns, count, function, column):
        head = f"aggregate {function} of column {column} of {columns}, rows {count}, is "
        if columns > 4 or count > ROWS or column >= columns or columns * count > self.room:
            return head + "refused"
        if function == 0:
            return head + f"{count}/1"
        if column in self.spoiled:
            return head + "outside"
        values = [row[column] for row in self.rows[:count] if row[column] is not None]
        if function in (1, 4) and any(v.denominator != 1 for v in values):
            raise ValueError("sums are of whole columns")
        if function == 1:
            return head + f"{sum(values)}/1"
        result = [min(values), max(values), sum(values) / Fraction(len(values))][function - 2] if values else None
        return head + text(pair_of(result))

    def lines(self):
        return [f"row {r} " + " ".join(text(pair_of(q)) for q in row) for r, row in enumerate(self.rows)]


def row_key(row):
    return [key_of(q) for q in row]


def insert_line(s, row, count):
    return f"insert {' '.join(map(text, row))} is {s.insert(row, count)}"


def ends():
    s = Set(2, 13)
    low, high, one = (-END, 1), (END, 1), (1, 1)
    rows = [(high, (905, 1)), (high, (1811, 2)), (low, (BOUND, 1)), (low, (-BOUND, 1)), (high, (END - 1, 256)),
            (high, (END - 2, 255))]
    for count, row in enumerate(rows):
        yield insert_line(s, row, count)
    for count, row in [(6, (low, (BOUND, 1))), (6, (low, (BOUND + 1, 1))), (6, ((1, 257), one)), (6, (one, one)),
                       (7, (one, one)), (257, (one, one))]:
        yield insert_line(s, row, count)
    yield ""
    yield from s.lines()
    for f in range(5):
        yield s.aggregate(2, 6, f, 0)
    for f in range(5):
        yield s.aggregate(2, 0, f, 1)
    yield s.aggregate(2, 6, 2, 1)
    yield s.aggregate(2, 6, 3, 1)
    yield s.aggregate(2, 7, 3, 1)
    yield s.aggregate(2, 6, 3, 2)
    yield s.aggregate(5, 2, 3, 1)
    yield "write 1/257 at place 1: yes"
    yield "write 1/257 at place 13: no"
    s.spoiled.add(1)
    for f, c in [(0, 1), (1, 1), (2, 1), (2, 0)]:
        yield s.aggregate(2, 6, f, c)


def absent_rows():
    s = Set(2, 12)
    none, zero = (0, 0), (0, 1)
    for count, row in [(0, (zero, none)), (1, ((7, 1), (-1, 2))), (2, (none, (3, 1))), (3, ((-5, 1), none)),
                       (4, (none, none)), (5, (none, none)), (5, ((1, 0), none)), (5, ((4, 1), none))]:
        yield insert_line(s, row, count)
    yield ""
    yield from s.lines()
    for f in range(5):
        yield s.aggregate(2, 6, f, 0)
    for f in (2, 3):
        yield s.aggregate(2, 6, f, 1)
    for f in range(5):
        yield s.aggregate(2, 2, f, 0)


def draws():
    x = 1
    for _ in range(600):
        x = (x * 1103515245 + 12345) % 2**31
        small, large = (-2, -1, 0, 1, 2), (-END, END)
        yield (average(small[x // 16 % 5], 1 + x // 256 % 3), average(large[x // 1024 % 2], 255 + x // 4096 % 2),
               average(small[x // 65536 % 4], 1), average(1823, 1 + x // 1048576 % 2))


def drawn():
    s = Set(4, 1024)
    for row in draws():
        yield insert_line(s, row, len(s.rows))
    yield f"new rows {len(s.rows)}"
    yield from s.lines()
    for f in range(5):
        yield s.aggregate(4, 256, f, 2)
    for f, c in [(2, 0), (3, 0), (2, 1), (3, 3)]:
        yield s.aggregate(4, 256, f, c)
    yield s.aggregate(4, 257, 0, 0)
    last = [pair_of(q) for q in s.rows[255]]
    yield "copy 1023 values: yes"
    yield f"value 1022 and the next: {text(last[2])} 7/7"
    yield "copy 1025 values: no"
    yield "zero 2046 words: yes"
    yield "value 1022 and the next: 0/0 7/7"
    yield "zero 2049 words: no"


if __name__ == "__main__":
    help_first(__doc__)
    for part in (orders(), absents(), past_the_last(), averages(), empties(), divisors(), ends(), absent_rows(),
                 drawn()):
        for line in part:
            print(line)
