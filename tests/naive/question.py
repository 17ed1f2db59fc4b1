"""The question's records read from bytes ("The question"). Whatever does not read is cause 5.

The reader knows no limit: any number of blocks, relation rows, conditions and elements is read to the end, so that
a question both over a limit and malformed is 5 ("Causes of refusal": the lowest number that applies).
"""

from typing import NamedTuple, Union


class Empty(NamedTuple):
    pass


class Constant(NamedTuple):
    value: int


class Variable(NamedTuple):
    number: int


class Fixed(NamedTuple):
    number: int


class Aggregate(NamedTuple):
    function: int       # 0 count, 1 sum, 2 min, 3 max, 4 ave
    block: int
    column: int


Element = Union[Empty, Constant, Variable, Fixed, Aggregate]
COUNT, SUM, MIN, MAX, AVE = range(5)

# The kinds that each record takes.
KINDS = {b"RW": (0, 1, 2, 3), b"CD": (1, 2, 3, 4), b"OL": (2, 4)}


class RelationRow(NamedTuple):
    table: int
    entries: list


class Condition(NamedTuple):
    operator: int       # 0 =, 1 ≠, 2 <, 3 ≤, 4 >, 5 ≥
    left: Element
    right: Element

    def elements(self):
        return [self.left, self.right]


class Block(NamedTuple):
    parent: int
    relation_rows: list
    conditions: list
    output: list

    def elements(self):
        """All elements of the block, in the order written."""
        return ([entry for row in self.relation_rows for entry in row.entries]
                + [element for condition in self.conditions for element in condition.elements()]
                + self.output)

    def aggregates(self):
        return [element for element in self.elements() if isinstance(element, Aggregate)]


class Malformed(Exception):
    """Cause 5."""


class Cursor:
    """A place in the question's bytes."""

    def __init__(self, data):
        self.data = data
        self.at = 0

    def take(self, length):
        taken = self.data[self.at:self.at + length]
        if len(taken) < length:
            raise Malformed("cut")
        self.at += length
        return taken

    def byte(self):
        return self.take(1)[0]

    def stands_at(self, mark):
        return self.data[self.at:self.at + 2] == mark

    def expect(self, mark):
        if self.take(2) != mark:
            raise Malformed(f"{mark} expected")


def read_question(data):
    """The blocks, up to EN, which ends the bytes ("The question", first paragraph)."""
    cursor, blocks = Cursor(data), []
    while cursor.stands_at(b"BK"):
        blocks.append(read_block(cursor))
    cursor.expect(b"EN")
    if cursor.at != len(data):
        raise Malformed("tail")
    return blocks


def read_block(cursor):
    """One BK, then any RW, then any CD, one OL ("The question", first paragraph)."""
    cursor.expect(b"BK")
    parent = cursor.byte()
    relation_rows, conditions = [], []
    while cursor.stands_at(b"RW"):
        relation_rows.append(read_relation_row(cursor))
    while cursor.stands_at(b"CD"):
        conditions.append(read_condition(cursor))
    cursor.expect(b"OL")
    output = [read_element(cursor, b"OL") for _ in range(cursor.byte())]
    return Block(parent, relation_rows, conditions, output)


def read_relation_row(cursor):
    """Table byte, entry count byte, that many elements ("The question", RW)."""
    cursor.expect(b"RW")
    table, count = cursor.byte(), cursor.byte()
    return RelationRow(table, [read_element(cursor, b"RW") for _ in range(count)])


def read_condition(cursor):
    """Operator byte 0 to 5, two elements ("The question", CD)."""
    cursor.expect(b"CD")
    operator = cursor.byte()
    if operator > 5:
        raise Malformed("operator")
    return Condition(operator, read_element(cursor, b"CD"), read_element(cursor, b"CD"))


def read_element(cursor, record):
    """A kind byte that the record takes and an 8-byte argument ("The question", elements)."""
    kind = cursor.byte()
    if kind not in KINDS[record]:
        raise Malformed("kind")
    argument = cursor.take(8)
    number = int.from_bytes(argument, "little", signed=True)
    if kind == 0:
        if number != 0:
            raise Malformed("empty with an argument")
        return Empty()
    if kind == 4:
        return read_aggregate(argument)
    return {1: Constant, 2: Variable, 3: Fixed}[kind](number)


def read_aggregate(argument):
    """Function, block, output column (0 for count), the rest 0 ("The question", kind 4)."""
    function, block, column = argument[0], argument[1], argument[2]
    if function > 4 or any(argument[3:]) or (function == COUNT and column != 0):
        raise Malformed("aggregate")
    return Aggregate(function, block, column)
