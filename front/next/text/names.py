"""Names of the notation looked up: tables, columns, blocks and variables become numbers, and the job its bytes.

A variable belongs to the block where it stands without ^, so one name in two sibling blocks is two variables. A name that
stands without ^ below the block that it belongs to keeps that block's number: number 8 tells of it.
"""

from dataclasses import dataclass, field
from typing import NamedTuple

from . import format as fmt
from .hints import close, shown
from .lines import NotationError
from .parser import Constant, Empty, Fixed, Variable, raised

VARIABLES = 16
SMALLEST, LARGEST = -2**31, 2**31 - 1


class Placed(NamedTuple):
    """An element by number, and its line. The argument of a constant is the one written, until it is coded."""
    kind: int
    argument: object
    line: int = 0
    written: str = ""


@dataclass
class NumberedBlock(fmt.BlockText):
    """A block by number, with the lines where its parts stand."""
    line: int = 0
    row_lines: list = field(default_factory=list)
    condition_lines: list = field(default_factory=list)


class Names:
    """The numbers of a parsed text's names. `told` gets each mistake; without it the first one is raised. Where variables
    are numbered, v0 to v15 have the numbers in their names."""

    def __init__(self, parsed, told=None, numbered=False):
        self.parsed, self.told = parsed, told or raised
        self.known = parsed.tables
        self.tables, self.blocks = list(self.known), list(parsed.blocks)
        self.own = {name: {element.name for element in block.elements() if isinstance(element, Variable)}
                    for name, block in parsed.blocks.items()}
        self.variables = self.number_variables(numbered)        # (block name, variable name): number
        self.numbered = [self.numbered_block(block) for block in parsed.blocks.values()]

    def tell(self, line, message):
        self.told(NotationError(line, message))

    # Variables.

    def outer(self, block):
        """The blocks around a block, the nearest first."""
        parent = self.parsed.blocks[block].parent
        return [] if parent is None else [parent, *self.outer(parent)]

    def owner(self, block, element):
        """The block that a variable belongs to."""
        around = [outer for outer in self.outer(block) if element.name in self.own[outer]]
        if isinstance(element, Fixed):
            others = [other for other in self.blocks if element.name in self.own[other]]
            return (around + others + [block])[0]
        return around[-1] if around else block

    def number_variables(self, numbered):
        uses = [((self.owner(name, element), element.name), element.line) for name, block in self.parsed.blocks.items()
                for element in block.elements() if isinstance(element, (Variable, Fixed))]
        if numbered:
            uses = [(("", name) if is_numbered(name) else (block, name), line) for (block, name), line in uses]
        numbers = {key: int(key[1][1:]) for key, _ in uses if key[0] == ""}
        left = [number for number in range(VARIABLES) if number not in numbers.values()]
        for key, line in uses:
            if key not in numbers:
                if not left:
                    self.tell(line, f"{key[1]} is one variable more than sixteen")
                numbers[key] = left.pop(0) if left else VARIABLES
        return numbers

    def variable(self, block, element):
        key = self.owner(block, element), element.name
        return self.variables[key] if key in self.variables else self.variables["", element.name]

    # Blocks and their parts.

    def element(self, block, element):
        """The kind and argument of an element of the parser."""
        if isinstance(element, Empty):
            return Placed(fmt.EMPTY, 0, element.line)
        if isinstance(element, Constant):
            return Placed(fmt.CONSTANT, element, element.line)
        if isinstance(element, (Variable, Fixed)):
            kind = fmt.FIXED if isinstance(element, Fixed) else fmt.VARIABLE
            return Placed(kind, self.variable(block, element), element.line)
        number = self.block_number(element.line, element.block)
        column = 0 if element.function == 0 else self.output_column(element)
        return Placed(*fmt.aggregate(element.function, number, column), element.line)

    def block_number(self, line, name):
        if name not in self.parsed.blocks:
            self.tell(line, f"no block {name}" + close(name, self.blocks))
            return 255
        return self.blocks.index(name)

    def output_column(self, aggregate):
        """The place of an output column given by its name or its place."""
        line, function, block, column = aggregate
        output = self.parsed.blocks[block].output or [] if block in self.parsed.blocks else []
        titles = [title or (element.name if isinstance(element, Variable) else None) for element, title in output]
        if column is None and len(output) == 1:
            return 0
        if column is not None and column.isdecimal():
            return place(self, line, column)
        if not output or titles.count(column) == 1:
            return titles.index(column) if output else 0
        names = [title for title in titles if title]
        word = fmt.FUNCTIONS[function]
        if column is None:
            self.tell(line, f"{word}({block}) names no column: write " + " or ".join(
                f"{word}({shown(block)}.{shown(name)})" for name in names or ["0"]))
        else:
            lacking = "two columns" if column in titles else "no column"
            self.tell(line, f"block {block} gives {lacking} {column}" + (
                close(column, names) or (f": it gives {', '.join(map(shown, names))}" if names else "")))
        return 0

    def relation_row(self, block, row):
        """The table's number and the entries of all its columns."""
        if row.table not in self.known:
            among = ", neither above nor among the files" if self.parsed.given or not self.known else " above"
            self.tell(row.line, f"no table {row.table}" + (close(row.table, self.known) or among))
            return 255, [self.element(block, entry) for entry in row.entries.values()]
        columns = self.known[row.table].columns
        for column, entry in row.entries.items():
            if columns.count(column) != 1:
                self.tell(entry.line, f"table {row.table} has {'two columns' if column in columns else 'no column'} "
                                      f"{column}" + close(column, columns) * (column not in columns))
        return self.tables.index(row.table), [
            self.element(block, row.entries[column]) if column in row.entries else Placed(fmt.EMPTY, 0, row.line)
            for column in columns]

    def numbered_block(self, block):
        """The block with its names looked up."""
        if block.output is None and not block.broken:
            self.tell(block.line, f"block {block.name} has no give")
        parent = fmt.NO_PARENT if block.parent is None else self.blocks.index(block.parent)
        return NumberedBlock(
            parent, [self.relation_row(block.name, row) for row in block.relation_rows],
            [(condition.operator, self.element(block.name, condition.left), self.element(block.name, condition.right))
             for condition in block.conditions],
            [self.element(block.name, element) for element, _ in block.output or []],
            block.line, [row.line for row in block.relation_rows], [condition.line for condition in block.conditions])

    # The plan.

    def path_column(self, block, path):
        """The place of a plan's column, given by its place or its name in the table of the first live relation row."""
        live = [row.table for row in self.parsed.blocks[block].relation_rows if row.table in self.known
                and any(not isinstance(entry, Empty) for entry in row.entries.values())]
        columns = self.known[live[0]].columns if live else []
        if path.column in columns:
            return columns.index(path.column)
        if path.column.isdecimal():
            return place(self, path.line, path.column)
        self.tell(path.line, f"table {live[0]} has no column {path.column}" + close(path.column, columns) if live else
                  f"block {block} has no relation row to scan")
        return 255

    def paths(self):
        """The path and column of each block; a block that the plan leaves out is by file."""
        paths = [(0, 0)] * len(self.blocks)
        for block, path in self.parsed.paths.items():
            number = self.block_number(path.line, block)
            if number < len(paths):
                paths[number] = path.path, 0 if path.column is None else self.path_column(block, path)
        return paths


def is_numbered(name):
    return name[0] == "v" and name[1:].isdecimal() and name[1:] == str(int(name[1:])) and int(name[1:]) < VARIABLES


def place(names, line, digits):
    if len(digits) > 3 or int(digits) > 255:
        names.tell(line, f"{digits} is no column's place")
        return 255
    return int(digits)


# A text whose cells and constants are whole numbers, as it stands: every table, every column.

def whole(text, line, what, low, high):
    digits = text.removeprefix("+").removeprefix("-")
    if not digits.isdecimal() or len(digits) > 40:
        raise NotationError(line, f"{what}: a whole number expected, not {text!r}")
    if not low <= int(text) <= high:
        raise NotationError(line, f"{what} {text} is not from {low} to {high}")
    return int(text)


def exact_element(element):
    if element.kind != fmt.CONSTANT:
        return element
    return element._replace(argument=whole(element.argument.text, element.line, "a constant", -2**63, 2**63 - 1))


def exact_block(block):
    return fmt.BlockText(block.parent, [(table, [exact_element(entry) for entry in entries])
                                        for table, entries in block.relation_rows],
                         [(operator, exact_element(left), exact_element(right))
                          for operator, left, right in block.conditions], [exact_element(e) for e in block.output])


def exact_job(parsed, numbered=True):
    """The job of a parsed text of whole numbers."""
    names = Names(parsed, numbered=numbered)
    tables = [(len(table.columns), [[whole(cell, line, "a value", SMALLEST, LARGEST) for cell in row]
                                    for line, row in zip(table.lines, table.rows)]) for table in names.known.values()]
    blocks = [exact_block(block) for block in names.numbered]
    plan = fmt.plan_bytes(names.paths()) if parsed.raw_plan is None else parsed.raw_plan
    budget = fmt.LISTING_BUDGET if parsed.budget is None else parsed.budget
    return fmt.Job(fmt.data_words(tables), fmt.question_bytes(blocks), plan, budget, tuple(parsed.lengths))
