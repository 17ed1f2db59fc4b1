"""Classes of what is set against each other: columns, variables, constants, outputs and aggregates.

A class is of texts where a cell of one of its columns is no number; its members then stand for their rank among all its
texts. Else it is of numbers, with one power of ten. What cannot stand together is told in words, with its line.
"""

from dataclasses import dataclass, field

from text import format as fmt

from .question import unit
from .tables import Mistake
from .trees import AVE, COUNT, SUM, aggregate_of, elements_of

FLIPPED = [0, 1, 4, 5, 2, 3]            # the operator with its sides exchanged
ROUNDED = {2: ("<=", 0), 3: ("<=", 0), 4: (">=", 1), 5: (">=", 1)}      # of a count against a number with decimals


@dataclass
class Class:
    """What is set against each other, and how its values are coded."""
    options: object
    columns: list = field(default_factory=list)         # fitting.Column
    constants: list = field(default_factory=list)       # text.parser.Constant
    counts: list = field(default_factory=list)          # (line, aggregate in words)
    sums: list = field(default_factory=list)            # the same of sums and averages
    is_text: bool = False
    scale: int = 0
    finest: str = ""                                    # what has as many decimals as the scale
    texts: list = field(default_factory=list)           # ascending
    ranks: dict = field(default_factory=dict)

    def code(self, cell):
        """The whole number that a cell stands for."""
        if self.is_text:
            return self.ranks[cell]
        digits, decimals = self.options.number(cell)
        return digits * 10**(self.scale - decimals)

    def constant_code(self, constant):
        return self.code(constant.text if self.is_text else self.in_cells(constant))

    def in_cells(self, constant):
        """A number of the question, always written with a point, as a cell would have it."""
        return constant.text.replace(".", ",") if self.options.decimal_comma else constant.text

    def is_word(self, cell):
        return self.options.number(cell) is None

    def words(self):
        """The first cell of each column that is no number, with its place."""
        return [found for column in self.columns if (found := column.where(self.is_word))]

    def numeric(self):
        """The columns whose cells are all numbers."""
        return [column for column in self.columns
                if column.rows and not column.is_text and not column.where(self.is_word)]

    def settle(self):
        """Whether it is of texts; then its ranks, else its power of ten."""
        words, told = self.words(), [column for column in self.columns if column.is_text]
        texts = [constant for constant in self.constants if constant.is_text and self.is_word(constant.text)]
        if texts and not words and not told and self.numeric():
            raise Mistake(f'line {texts[0].line}: "{texts[0].text}" is text, but all cells of '
                          f"{self.numeric()[0].name} are numbers")
        self.is_text = bool(words or told or texts)
        if self.is_text:
            self.settle_texts(words[0] if words else "by --text" if told else "")
        else:
            self.settle_scale()

    def settle_texts(self, evidence):
        name = self.columns[0].name if self.columns else "the other side"
        why = f"{name} is text" + (f" ({evidence})" if evidence else "")
        for constant in self.constants:
            if not constant.is_text:
                raise Mistake(f'line {constant.line}: {constant.text} is a number, but {why}: write "{constant.text}" '
                              "if the text is meant" + self.comma_hint())
        for line, aggregate in self.counts:
            raise Mistake(f"line {line}: {aggregate} is a number, but {why}")
        for line, aggregate in self.sums:
            raise Mistake(f"line {line}: {aggregate}: {why}: count, min and max only" + self.comma_hint())
        self.texts = sorted({cell for column in self.columns for cell in column.cells()}
                            | {constant.text for constant in self.constants})
        self.ranks = {text: rank for rank, text in enumerate(self.texts)}

    def comma_hint(self):
        """What to say where only its decimal commas keep a column from being one of numbers."""
        by_comma = type(self.options)(decimal_comma=True)
        others = any(column.is_text or column.where(lambda cell: by_comma.number(cell) is None) for column in self.columns)
        return "" if others or not self.columns or self.options.decimal_comma else "; --decimal-comma reads 91,5 as a number"

    def settle_scale(self):
        for column in self.columns:
            for row, cell in zip(column.rows, column.cells()):
                self.refine(cell, column.table.place_of(row))
        for constant in self.constants:
            self.refine(self.in_cells(constant), f"line {constant.line}")
        if self.scale and self.counts:
            line, aggregate = self.counts[0]
            remedy = f"give whole numbers in {self.columns[0].name}" if self.columns else "write a whole number"
            raise Mistake(f"line {line}: {aggregate} is whole and cannot be set against decimals ({self.finest}): {remedy}")

    def refine(self, cell, place):
        decimals = self.options.number(cell)[1]
        if decimals > self.scale:
            self.scale, self.finest = decimals, f"{place}: {cell}"

    def notes(self):
        """Which columns are scaled, and which columns of numbers are read as text."""
        names = list(dict.fromkeys(column.name for column in self.columns))
        if self.scale and names:
            yield f"{', '.join(names)} in {unit(self.scale)}"
        words = self.words() if self.is_text else []
        for column in self.numeric() if words else []:
            yield f"{column.table.name}.{column.name} is read as text ({words[0]})"


class Classes:
    """The classes of a question's blocks over its columns. `words` says an aggregate in words."""

    def __init__(self, blocks, columns, options, words):
        self.above = {}                     # a forest: each node below another of its class
        self.blocks, self.words = blocks, words
        for number, block in enumerate(blocks):
            self.link_block(number, block)
        for key in columns:
            self.root(("column", *key))
        self.members = {self.root(node): Class(options) for node in list(self.above)}
        for key, column in columns.items():
            self.of("column", *key).columns.append(column)
        self.gather()
        self.tell_counts(options)
        for each in self.members.values():
            each.settle()

    def root(self, node):
        while self.above.setdefault(node, node) != node:
            node = self.above[node]
        return node

    def link(self, one, other):
        self.above[self.root(one)] = self.root(other)

    @staticmethod
    def node(element):
        """The node of an element that is not empty."""
        if element.kind == fmt.CONSTANT:
            return "constant", element.argument
        if element.kind in (fmt.VARIABLE, fmt.FIXED):
            return "variable", element.argument
        function, block, column = aggregate_of(element)
        return ("count", block) if function == COUNT else ("output", block, column)

    def link_block(self, number, block):
        for table, entries in block.relation_rows:
            for place, entry in enumerate(entries):
                if entry.kind != fmt.EMPTY:
                    self.link(("column", table, place), self.node(entry))
        for _, left, right in block.conditions:
            self.link(self.node(left), self.node(right))
        for place, element in enumerate(block.output):
            self.link(("output", number, place), self.node(element))

    def of(self, *node):
        return self.members[self.root(node)]

    def constant_code(self, constant):
        return self.of("constant", constant).constant_code(constant)

    def gather(self):
        """Constants, counts, sums and averages go to their classes."""
        for element in (element for block in self.blocks for element in elements_of(block)):
            if element.kind == fmt.CONSTANT:
                self.of(*self.node(element)).constants.append(element.argument)
            elif element.kind == fmt.AGGREGATE:
                function, found = aggregate_of(element)[0], self.of(*self.node(element))
                if function in (COUNT, SUM, AVE):
                    (found.counts if function == COUNT else found.sums).append((element.line, self.words(element)))

    def tell_counts(self, options):
        """A count against a constant with decimals, told with the whole number to write instead."""
        for operator, left, right in (condition for block in self.blocks for condition in block.conditions):
            if right.kind == fmt.AGGREGATE:
                operator, left, right = FLIPPED[operator], right, left
            if left.kind != fmt.AGGREGATE or aggregate_of(left)[0] != COUNT or right.kind != fmt.CONSTANT:
                continue
            number = type(options)().number(right.argument.text)
            if number is not None and number[1] > 0:
                words, sign, below = self.words(left), fmt.OPERATORS[operator], number[0] // 10**number[1]
                remedy = (f"write {words} {ROUNDED[operator][0]} {below + ROUNDED[operator][1]}" if operator in ROUNDED
                          else f"this is {'never' if operator == 0 else 'always'} so")
                raise Mistake(f"line {left.line}: {words} {sign} {right.argument.text}: a count is whole: {remedy}")

    def notes(self):
        return [note for each in self.members.values() for note in each.notes()]
