"""The notation read into named tables, blocks, plan, budget and buffer lengths; names are looked up in names.py.

A line that cannot be read is told and left out, so that one reading finds the mistakes of all lines. Words of the notation
are known by their place: a column may be called `count`, a table `plan`.
"""

from dataclasses import dataclass, field
from typing import NamedTuple

from . import format as fmt
from .hints import LINE_HINTS, OPERATOR_HINTS, close
from .lines import LINE_WORDS, NUMBER, QUOTED, WORD, NotationError, lines_of

OPERATOR_CODES = {"=": 0, "==": 0, "≠": 1, "!=": 1, "<>": 1, "<": 2, "≤": 3, "<=": 3, "=<": 3, ">": 4, "≥": 5, ">=": 5,
                  "=>": 5}
FUNCTION_WORDS = {**{word: place for place, word in enumerate(fmt.FUNCTIONS)},
                  "avg": 4, "average": 4, "mean": 4, "minimum": 2, "maximum": 3}
PATH_WORDS = {**{word: place for place, word in enumerate(fmt.PATHS)}, "merge": 2}
GIVE_WORDS = ("give", "gives")


class Empty(NamedTuple):
    line: int


class Constant(NamedTuple):
    """A number as written, or a text; `place` tells it from all others of the question."""
    line: int
    text: str
    is_text: bool
    place: int


class Variable(NamedTuple):
    line: int
    name: str


class Fixed(NamedTuple):
    """A variable of an outer block, written with ^."""
    line: int
    name: str


class Aggregate(NamedTuple):
    """The column is a name, a place from 0 in digits, or None where none is written."""
    line: int
    function: int
    block: str
    column: str | None


class Condition(NamedTuple):
    line: int
    operator: int
    left: tuple
    right: tuple


class Output(NamedTuple):
    element: tuple
    title: str | None


class Path(NamedTuple):
    line: int
    path: int
    column: str | None


@dataclass
class RelationRow:
    line: int
    table: str
    entries: dict = field(default_factory=dict)     # column name: element


@dataclass
class Table:
    """A table as written: each cell is a text, each row has its line."""
    name: str
    columns: list
    source: str = ""                                # the file, "" for the question's own
    rows: list = field(default_factory=list)
    lines: list = field(default_factory=list)

    def place_of(self, row):
        """Where a row stands, in words."""
        return f"{self.source}, line {self.lines[row]}" if self.source else f"line {self.lines[row]}"


@dataclass
class Block:
    """A block with names not yet looked up."""
    line: int
    name: str
    parent: str | None
    relation_rows: list = field(default_factory=list)
    conditions: list = field(default_factory=list)
    output: list | None = None
    broken: bool = False                            # a line of it could not be read

    def elements(self):
        """All elements, in the order of the records."""
        return ([entry for row in self.relation_rows for entry in row.entries.values()]
                + [element for condition in self.conditions for element in condition[2:]]
                + [column.element for column in self.output or []])


class Parser:
    """Reads a text line by line. `told` gets each mistake; without it the first one is raised."""

    def __init__(self, text, given=None, told=None):
        self.given = given or {}                    # tables from files, by name
        self.written = {}                           # tables in the text, by name
        self.blocks = {}
        self.paths = {}                             # by block name
        self.plan_line_number = self.budget = self.budget_line_number = self.raw_plan = None
        self.lengths = list(fmt.BUFFER_WORDS)
        self.table = self.block = None
        self.constants = 0
        told = told or raised
        for line in lines_of(text, told):
            try:
                self.line(line)
                self.end(line)
            except NotationError as error:
                if self.block is not None:
                    self.block.broken = True
                told(error)

    @property
    def tables(self):
        """All tables, those of the text last."""
        return {**self.given, **self.written}

    @staticmethod
    def end(line):
        """Nothing is left of a line."""
        word = (line.next() or "").lower()
        if line.kind() == WORD and word in (*LINE_WORDS, "gives"):
            line.fail(f"write {word} on a line of its own")
        if line.kind() == WORD and word in OPERATOR_HINTS:
            line.fail(OPERATOR_HINTS[word])
        line.end()

    def line(self, line):
        starts = {"table": self.table_line, "block": self.block_line, "where": self.where_line,
                  "give": self.give_line, "plan": self.plan_line, "budget": self.budget_line, "lend": self.lend_line}
        word = line.next().lower() if line.kind() == WORD else None
        word = "give" if word in GIVE_WORDS else word
        is_row = line.is_sign("(", place=1) and line.next() in self.tables
        if word in starts and not is_row:
            line.take()
            starts[word](line)
        elif self.table is not None:
            self.table_row(line)
        elif line.kind() == NUMBER or line.is_sign("-", "+"):
            line.fail("numbers stand under a table only")
        else:
            self.relation_row(line)

    def table_line(self, line):
        name = line.name("a table's name")
        self.table = self.block = None
        if name in self.tables:
            line.fail(f"a second table {name}")
        line.expect("(")
        columns = [line.name("a column's name")]
        while line.taken(","):
            columns.append(line.name("a column's name"))
        line.expect(")")
        if len(set(columns)) < len(columns):
            line.fail("two columns of one name")
        self.written[name] = self.table = Table(name, columns)

    def table_row(self, line):
        """A row: cells split by spaces or commas, texts in quotes where they are not one word."""
        cells, number = [], line.number
        while line.tokens:
            sign = line.take().text if line.is_sign("-", "+") else ""
            if sign and line.kind() != NUMBER or line.kind() not in (WORD, QUOTED, NUMBER):
                line.fail(f"a value expected, not {line.tokens[0].shown()}" if line.tokens
                          else "a value expected at the end of the line")
            cells.append(sign + line.take().text)
            line.taken(",")
        if len(cells) != len(self.table.columns):
            line.fail(f"{fmt.many(len(cells), 'value')}, but the table has {fmt.many(len(self.table.columns), 'column')}",
                      number)
        self.table.rows.append(cells)
        self.table.lines.append(number)

    def block_line(self, line):
        number, name, parent = line.number, line.name("a block's name"), None
        self.table = self.block = None
        if name in self.blocks:
            line.fail(f"a second block {name}", number)
        if line.taken_word("in"):
            parent = line.name("the parent block's name")
            if parent not in self.blocks:
                line.fail(f"no block {parent} above" + close(parent, self.blocks), number)
        if (parent is None) != (not self.blocks):
            line.fail("the first block has no parent, and every other block has one" if parent is not None else
                      f"block {name} stands in no other: write block {name} in {list(self.blocks)[0]}", number)
        self.blocks[name] = self.block = Block(number, name, parent)

    def in_block(self, line, what):
        """The block being written."""
        if self.block is None:
            line.fail(f"{what} stands in a block only: write block top above it" if not self.blocks else
                      f"{what} stands in a block only", line.number)
        return self.block

    def relation_row(self, line):
        word = line.next().lower()
        if line.kind() == WORD and not line.is_sign("(", place=1) and line.next() not in self.tables:
            line.fail(LINE_HINTS.get(word) or f"no table {line.next()}" + close(word, [*LINE_WORDS, *self.tables]))
        number, block = line.number, self.in_block(line, "a relation row")
        row = RelationRow(number, line.name("a table's name"))
        if line.taken("(") and not line.taken(")"):
            while True:
                self.entry(line, row)
                if line.expect(",", ")") == ")":
                    break
        block.relation_rows.append(row)

    def entry(self, line, row):
        """COLUMN = ELEMENT."""
        number, column = line.here(), line.name("a column's name")
        sign = line.next()
        if line.kind() == "sign" and sign in OPERATOR_CODES and sign != "=":
            written = "".join(token.text for token in line.tokens[1:2])
            line.fail(f"write {column} = {written}: a relation row has no ==" if sign == "==" else
                      f"comparisons stand in conditions: write {column} = X here and where X {sign} {written} below")
        line.expect("=")
        if column in row.entries:
            line.fail(f"column {column} twice", number)
        row.entries[column] = self.element(line, entry=True)

    def where_line(self, line):
        block = self.in_block(line, "where")
        while True:
            number, opened = line.here(), line.taken("(")
            if line.is_word("not", "exists"):
                line.fail(OPERATOR_HINTS[line.next().lower()])
            left = self.element(line)
            if not line.is_sign(*OPERATOR_CODES):
                found = line.take("an operator")
                line.fail(OPERATOR_HINTS.get(found.text.lower(), f"an operator expected, not {found.shown()}"),
                          found.line)
            operator = OPERATOR_CODES[line.take().text]
            block.conditions.append(Condition(number, operator, left, self.element(line)))
            if opened:
                line.expect(")")
            if line.is_sign(*OPERATOR_CODES):
                line.fail("a condition has two sides: write two, joined by and")
            if not line.taken_word("and"):
                return

    def give_line(self, line):
        block = self.in_block(line, "give")
        if block.output is not None:
            line.fail(f"block {block.name} has a give already: name all its columns there", line.number)
        block.output = []
        while line.tokens:
            title = None
            if line.kind() in (WORD, QUOTED) and line.is_sign(":", place=1):
                title = line.take().text
                line.take()
            number, element = line.here(), self.element(line)
            if isinstance(element, Fixed):
                line.fail(f"give takes variables of this block and aggregates: ^{element.name} is of an outer one", number)
            if not isinstance(element, (Variable, Aggregate)):
                line.fail("give takes variables and aggregates", number)
            block.output.append(Output(element, line.name("a column's name") if line.taken_word("as") else title))
            if line.is_word(*LINE_WORDS, *OPERATOR_HINTS):
                self.end(line)
            if line.tokens:
                line.expect(",")

    def element(self, line, entry=False):
        """An entry, a side of a condition or an output."""
        number = line.here()
        if entry and line.is_word("_"):
            line.take()
            return Empty(number)
        if line.taken("^"):
            return Fixed(number, line.name("a variable"))
        if line.is_sign("-", "+") and line.kind(1) == NUMBER:
            sign = line.take().text
            return self.constant(number, sign.replace("+", "") + line.take().text, False)
        if line.kind() in (NUMBER, QUOTED):
            return self.constant(number, line.next(), line.take().kind == QUOTED)
        if line.is_sign("(", place=1) and line.kind() == WORD:
            if entry:
                line.fail("an aggregate stands in where and give only: write a variable here and a condition below")
            return self.aggregate(line)
        if line.tokens and line.kind() != WORD:
            line.fail(f"a variable, a value{' or _' if entry else ' or an aggregate'} expected, "
                      f"not {line.tokens[0].shown()}")
        return Variable(number, line.take("a variable, a value" + (" or _" if entry else " or an aggregate")).text)

    def constant(self, line, text, is_text):
        self.constants += 1
        return Constant(line, text, is_text, self.constants)

    def aggregate(self, line):
        """FUNCTION(BLOCK), FUNCTION(BLOCK.COLUMN), or Klug's FUNCTION(COLUMN, BLOCK)."""
        number, word = line.here(), line.take().text
        if word.lower() not in FUNCTION_WORDS:
            line.fail(f"no function {word}" + close(word.lower(), FUNCTION_WORDS), number)
        function = FUNCTION_WORDS[word.lower()]
        line.expect("(")
        if line.is_sign("*"):
            line.fail(f"write {word}(BLOCK): an aggregate names a block")
        block, column = line.name("a block's name"), None
        if line.taken("."):
            column = self.output_column(line)
        elif line.taken(","):
            block, column = line.name("a block's name"), block
        line.expect(")")
        if function == 0 and column is not None:
            line.fail(f"count takes a block alone: write count({block})", number)
        return Aggregate(number, function, block, column)

    @staticmethod
    def output_column(line):
        """An output column's name, or its place from 0."""
        if line.kind() == NUMBER and line.next().isdecimal():
            return line.take().text
        return line.name("an output column")

    def plan_line(self, line):
        self.table, self.plan_line_number = None, line.number
        if line.is_word("hex"):
            digits, line.tokens = "".join(token.text for token in line.tokens[1:]), []
            try:
                self.raw_plan = bytes.fromhex(digits)
            except ValueError:
                line.fail(f"{digits} is not bytes in hexadecimal digits", line.number)
            return
        while True:
            number, block, path = line.here(), line.name("a block's name"), line.take("a path")
            if path.text.lower() not in PATH_WORDS:
                line.fail(f"file, index or merging expected, not {path.shown()}", path.line)
            code, column = PATH_WORDS[path.text.lower()], None
            if code != 0:
                column = self.output_column(line) if line.tokens else line.take("a column").text
            self.paths[block] = Path(number, code, column)
            if not line.taken(","):
                return

    def budget_line(self, line):
        self.table, self.budget_line_number = None, line.number
        self.budget = line.integer("the budget", 0, 2**64 - 1)

    def lend_line(self, line):
        self.table = None
        while True:
            buffer = line.take("a buffer's name").text
            if buffer not in fmt.BUFFER_NAMES:
                line.fail(f"one of {', '.join(fmt.BUFFER_NAMES)} expected, not {buffer!r}", line.number)
            self.lengths[fmt.BUFFER_NAMES.index(buffer)] = line.integer("a length", 0, 2**32 - 1)
            if not line.taken(","):
                return


def raised(error):
    raise error
