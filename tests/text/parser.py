"""The notation read into named tables, blocks, plan, budget and buffer lengths; names are looked up in names.py."""

import format as fmt

from .lines import NUMBER, Line

OPERATOR_CODES = {"=": 0, "≠": 1, "!=": 1, "<": 2, "≤": 3, "<=": 3, ">": 4, "≥": 5, ">=": 5}


class TableText:
    def __init__(self, columns):
        self.columns = columns
        self.rows = []


class NamedBlock:
    """A block with names not yet looked up. Elements are tuples: (line, word, ..)."""

    def __init__(self, line, parent):
        self.line = line
        self.parent = parent
        self.relation_rows = []     # (table name, {column place: element})
        self.conditions = []        # (operator, element, element)
        self.output = None          # [(element, column name or None)]


class Parser:
    """Reads a text line by line into named tables, blocks, plan, budget and buffer lengths."""

    def __init__(self, text):
        self.tables = {}
        self.blocks = {}
        self.paths = {}             # block name: (line, path, column or None)
        self.raw_plan = None
        self.budget = fmt.LISTING_BUDGET
        self.lengths = list(fmt.BUFFER_WORDS)
        self.table = self.block = None
        for number, text_line in enumerate(text.splitlines(), start=1):
            line = Line(number, text_line.split("#")[0])
            if line.tokens:
                self.line(line)
                line.end()

    def line(self, line):
        first = line.next()
        starts = {"table": self.table_line, "block": self.block_line, "where": self.where_line,
                  "give": self.give_line, "plan": self.plan_line, "budget": self.budget_line, "lend": self.lend_line}
        if first in starts:
            line.take()
            starts[first](line)
        elif NUMBER.match(first):
            self.table_row(line)
        else:
            self.relation_row(line)

    def table_line(self, line):
        name = line.name("a table's name")
        if name in self.tables:
            line.fail(f"a second table {name}")
        line.expect("(")
        columns = [line.name("a column's name")]
        while line.taken(","):
            columns.append(line.name("a column's name"))
        line.expect(")")
        if len(set(columns)) < len(columns):
            line.fail("two columns of one name")
        self.tables[name] = self.table = TableText(columns)
        self.block = None

    def table_row(self, line):
        if self.table is None:
            line.fail("numbers stand under a table only")
        row = [line.integer("a value", -2**31, 2**31 - 1) for _ in range(len(line.tokens))]
        if len(row) != len(self.table.columns):
            line.fail(f"{len(row)} values, but the table has {len(self.table.columns)} columns")
        self.table.rows.append(row)

    def block_line(self, line):
        name, parent = line.name("a block's name"), None
        if name in self.blocks:
            line.fail(f"a second block {name}")
        if line.taken("in"):
            parent = line.name("the parent block's name")
            if parent not in self.blocks:
                line.fail(f"no block {parent} above")
        if (parent is None) != (not self.blocks):
            line.fail("the first block has no parent, and every other block has one")
        self.blocks[name] = self.block = NamedBlock(line, parent)
        self.table = None

    def in_block(self, line, what):
        """The block being written, which may still take this kind of line."""
        if self.block is None:
            line.fail(f"{what} stands in a block only")
        if self.block.output is not None:
            line.fail("nothing of a block follows its give")
        return self.block

    def relation_row(self, line):
        block = self.in_block(line, "a relation row")
        name = line.name("a table's name")
        if name not in self.tables:
            line.fail(f"no table {name} above")
        if block.conditions:
            line.fail("relation rows come before the conditions")
        columns, entries = self.tables[name].columns, {}
        if line.taken("(") and not line.taken(")"):
            while True:
                column = line.name("a column's name")
                if column not in columns:
                    line.fail(f"table {name} has no column {column}")
                if columns.index(column) in entries:
                    line.fail(f"column {column} twice")
                line.expect("=")
                entries[columns.index(column)] = self.element(line, entry=True)
                if not line.taken(","):
                    break
            line.expect(")")
        block.relation_rows.append((name, entries))

    def where_line(self, line):
        block = self.in_block(line, "where")
        while True:
            left, operator = self.element(line), line.take("an operator")
            if operator not in OPERATOR_CODES:
                line.fail(f"an operator expected, not {operator!r}")
            block.conditions.append((OPERATOR_CODES[operator], left, self.element(line)))
            if not line.taken("and"):
                return

    def give_line(self, line):
        block = self.in_block(line, "give")
        block.output = []
        while line.tokens:
            element = self.element(line)
            if element[1] not in ("variable", "aggregate"):
                line.fail("give takes variables and aggregates")
            block.output.append((element, line.name("a column's name") if line.taken("as") else None))
            if line.tokens:
                line.expect(",")

    def element(self, line, entry=False):
        """(line, "empty"), (line, "constant", value), (line, "variable" or "fixed", name) or
        (line, "aggregate", function, block, column or None)."""
        token = line.next()
        if entry and line.taken("_"):
            return line, "empty"
        if line.taken("^"):
            return line, "fixed", line.name("a variable")
        if token is not None and NUMBER.match(token):
            return line, "constant", line.integer("a constant", -2**63, 2**63 - 1)
        if not entry and token in fmt.FUNCTIONS:
            return self.aggregate(line)
        return line, "variable", line.name("a variable, a number" + (" or _" if entry else " or an aggregate"))

    def aggregate(self, line):
        function = fmt.FUNCTIONS.index(line.take())
        line.expect("(")
        block, column = line.name("a block's name"), None
        if function != 0:
            line.expect(".")
            column = line.take("an output column")
        line.expect(")")
        return line, "aggregate", function, block, column

    def plan_line(self, line):
        if line.tokens[:1] == ["hex"]:
            digits, line.tokens = "".join(line.tokens[1:]), []
            try:
                self.raw_plan = bytes.fromhex(digits)
            except ValueError:
                line.fail(f"{digits} is not bytes in hexadecimal digits")
            return
        while True:
            block, path, column = line.name("a block's name"), line.take("a path"), None
            if path not in fmt.PATHS:
                line.fail(f"file, index or merging expected, not {path!r}")
            if path != "file":
                column = line.take("a column")
            self.paths[block] = (line, fmt.PATHS.index(path), column)
            if not line.taken(","):
                return

    def budget_line(self, line):
        self.budget = line.integer("the budget", 0, 2**64 - 1)

    def lend_line(self, line):
        while True:
            buffer = line.take("a buffer's name")
            if buffer not in fmt.BUFFER_NAMES:
                line.fail(f"one of {', '.join(fmt.BUFFER_NAMES)} expected, not {buffer!r}")
            self.lengths[fmt.BUFFER_NAMES.index(buffer)] = line.integer("a length", 0, 2**32 - 1)
            if not line.taken(","):
                return
