"""A question and its tables fitted to the engine, which takes whole numbers within ±1,000,000.

Only the tables and columns that the question names are sent. Columns, variables, constants and outputs that are set
against each other make one class. A class of numbers has one power of ten, by its finest cell or constant. In a class of
texts each text stands for its rank among all of them, so that = and < mean what they should.
"""

import re
from dataclasses import dataclass, field, replace

from text import format as fmt
from text.names import Names
from text.parser import Variable

from .classes import Classes
from .question import INT_64, NUMBER, RATIO, TEXT, OutputColumn, Question, SentTable, within
from .tables import Mistake
from .trees import aggregate_of, is_ratio, live_rows

POINT = re.compile(r"[+-]?(?:\d+\.?\d*|\.\d+)\Z", re.ASCII)
COMMA = re.compile(r"[+-]?(?:\d+,?\d*|,\d+)\Z", re.ASCII)
LONGEST_NUMBER = 400            # characters; what is longer is text


@dataclass
class Options:
    """How cells are read."""
    skip_empty: bool = False
    decimal_comma: bool = False
    text_columns: tuple = ()    # names of columns that are text whatever they hold
    encoding: str | None = None

    def number(self, cell):
        """The digits of a number without its point, and how many of them stand behind it; None for a text."""
        pattern, mark = (COMMA, ",") if self.decimal_comma else (POINT, ".")
        if len(cell) > LONGEST_NUMBER or not pattern.match(cell):
            return None
        whole, _, decimals = cell.partition(mark)
        decimals = decimals.rstrip("0")
        return int(whole + decimals or "0") if whole not in ("", "+", "-") else int(f"{whole}0{decimals}"), len(decimals)


@dataclass
class Column:
    """A column of a table as read: its cells in the rows that are kept."""
    table: object               # text.parser.Table
    place: int
    rows: list                  # numbers of the table's rows that are kept
    is_text: bool = False       # told to be text
    name: str = field(init=False)

    def __post_init__(self):
        self.name = self.table.columns[self.place]

    def cells(self):
        return [self.table.rows[row][self.place] for row in self.rows]

    def where(self, test):
        """The first cell that passes a test, with its place in words; None if there is none."""
        for row in self.rows:
            cell = self.table.rows[row][self.place]
            if test(cell):
                return f"{self.table.place_of(row)}: {cell}"
        return None


class Fitted:
    """A parsed text whose names are looked up, over its tables, as the engine can take it."""

    def __init__(self, parsed, options, told=None):
        self.parsed, self.options = parsed, options
        self.names = Names(parsed, told)
        self.paths = self.names.paths()
        self.notes = []

    def fit(self):
        """The question as it is sent; Mistake where it cannot be."""
        self.tables = list(self.names.known.values())
        self.kept = self.kept_columns()
        self.rows = {number: self.kept_rows(number) for number in self.kept}
        self.columns = {(number, place): Column(self.tables[number], place, self.rows[number], self.told_text(number, place))
                        for number, places in self.kept.items() for place in places}
        self.classes = Classes(self.names.numbered, self.columns, self.options, self.element_text)
        self.notes += self.classes.notes()
        return self.question()

    # What is sent.

    def kept_columns(self):
        """By table number: the columns that the question names; all of them where the plan is written in bytes."""
        kept = {}
        for number, block in enumerate(self.names.numbered):
            for table, entries in block.relation_rows:
                kept.setdefault(table, set()).update(
                    place for place, entry in enumerate(entries)
                    if entry.kind != fmt.EMPTY or self.parsed.raw_plan is not None)
            live, (path, column) = live_rows(block), self.paths[number]
            if path != 0 and live and column < len(live[0][1]):
                kept[live[0][0]].add(column)
        return {number: sorted(kept[number]) for number in sorted(kept)}

    def kept_rows(self, number):
        """The rows of a table that have no empty cell in a column that is sent."""
        table, rows, left_out = self.tables[number], [], 0
        for row, cells in enumerate(table.rows):
            empty = [place for place in self.kept[number] if cells[place] == ""]
            if empty and not self.options.skip_empty:
                raise Mistake(f"{table.place_of(row)}: {table.columns[empty[0]]} is empty; --skip-empty leaves such rows "
                              "out")
            if empty:
                left_out += 1
            else:
                rows.append(row)
        if left_out:
            self.notes.append(f"{table.name}: {fmt.many(left_out, 'row')} with an empty cell left out")
        return rows

    def told_text(self, number, place):
        table = self.tables[number]
        name = table.columns[place]
        return name in self.options.text_columns or f"{table.name}.{name}" in self.options.text_columns

    def sent_table(self, number):
        table, places, rows = self.tables[number], self.kept[number], self.rows[number]
        if not places:          # named by a row without entries: its cells are never looked at
            return SentTable(table.name, table.columns[:1], [[0] for _ in rows])
        classes = [self.classes.of("column", number, place) for place in places]
        return SentTable(
            table.name, [table.columns[place] for place in places],
            [[each.code(table.rows[row][place]) for each, place in zip(classes, places)] for row in rows],
            [table.place_of(row) for row in rows], [[table.rows[row][place] for place in places] for row in rows],
            [each.scale for each in classes], [each.finest for each in classes])

    def coded(self, element):
        """An element with its constant as a whole number."""
        if element.kind != fmt.CONSTANT:
            return element
        constant = element.argument
        return element._replace(argument=within(self.classes.constant_code(constant), INT_64), written=constant.text)

    def coded_block(self, block, sent):
        return replace(
            block, relation_rows=[(sent.index(table), [self.coded(entries[place]) for place in self.kept[table]] or
                                   [entries[0]]) for table, entries in block.relation_rows],
            conditions=[(operator, self.coded(left), self.coded(right)) for operator, left, right in block.conditions])

    def sent_path(self, number):
        """A path with its column's place among those sent."""
        path, column = self.paths[number]
        live = live_rows(self.names.numbered[number])
        if path == 0 or not live or column >= len(live[0][1]):
            return path, column
        return path, self.kept[live[0][0]].index(column)

    def question(self):
        parsed, names, sent = self.parsed, self.names, list(self.kept)
        blocks = [self.coded_block(block, sent) for block in names.numbered]
        tables = [self.sent_table(number) for number in sent]
        if not tables and self.tables:              # none is named: a question is never without tables
            tables = [SentTable("", ["none"], [])]
        titles = [[title_of(parsed, *column) for column in block.output or []] for block in parsed.blocks.values()]
        plan = fmt.plan_bytes([self.sent_path(number) for number in range(len(blocks))])
        return Question(
            tables, blocks, names.blocks, titles, {number: name for (_, name), number in names.variables.items()},
            plan if parsed.raw_plan is None else parsed.raw_plan,
            fmt.LISTING_BUDGET if parsed.budget is None else parsed.budget, tuple(parsed.lengths),
            parsed.plan_line_number, parsed.budget_line_number,
            [self.output_column(blocks, place, title) for place, title in enumerate(titles[0])] if titles else [],
            self.notes, parsed.plan_line_number is None)

    def output_column(self, blocks, place, title):
        found = self.classes.of("output", 0, place)
        if found.is_text:
            return OutputColumn(title, TEXT, 0, found.texts)
        return OutputColumn(title, RATIO if is_ratio(blocks, blocks[0].output[place]) else NUMBER, found.scale)

    def element_text(self, element):
        """An element in words: a variable by its name, an aggregate as written."""
        if element.kind == fmt.AGGREGATE:
            return aggregate_text(self.parsed, *aggregate_of(element))
        return str(element.argument)


def title_of(parsed, element, title):
    """What an output column is called: by `as`, by its variable, or by the aggregate as written."""
    if title is not None:
        return title
    if isinstance(element, Variable):
        return element.name
    return aggregate_text(parsed, element.function, list(parsed.blocks).index(element.block), element.column)


def aggregate_text(parsed, function, block, column):
    """An aggregate as a question writes it; the column by name or place."""
    blocks = list(parsed.blocks.values())
    name, output = (blocks[block].name, blocks[block].output or []) if block < len(blocks) else (str(block), [])
    if function == 0:
        return f"count({name})"
    place = int(column) if str(column).isdecimal() else 0 if column is None else None
    if place is not None and place < len(output):
        element, title = output[place]
        column = title or (element.name if isinstance(element, Variable) else str(place))
    return f"{fmt.FUNCTIONS[function]}({name}.{column})"
