"""Names of the notation looked up: tables, columns, blocks and variables become numbers, and the job its bytes."""

import format as fmt

from .lines import NUMBER

VARIABLES = 16


class Names:
    """The numbers of a parsed text's names."""

    def __init__(self, parsed):
        self.parsed = parsed
        self.tables = list(parsed.tables)
        self.blocks = list(parsed.blocks)
        self.variables = number_variables(parsed)

    def table_columns(self, name):
        return self.parsed.tables[name].columns

    def block_number(self, line, name):
        if name not in self.parsed.blocks:
            line.fail(f"no block {name}")
        return self.blocks.index(name)

    def output_column(self, line, block, column):
        """The place of an output column given by its name or its place."""
        output = self.parsed.blocks[block].output or []
        if NUMBER.match(column):
            return place(line, column)
        titles = [title or (element[2] if element[1] == "variable" else None) for element, title in output]
        if titles.count(column) != 1:
            line.fail(f"block {block} gives {'no column' if column not in titles else 'two columns'} {column}")
        return titles.index(column)

    def element(self, named):
        """The kind and argument of an element of the parser."""
        line, word, *rest = named
        if word == "empty":
            return fmt.EMPTY, 0
        if word == "constant":
            return fmt.CONSTANT, rest[0]
        if word == "variable":
            return fmt.VARIABLE, self.variables[rest[0]]
        if word == "fixed":
            return fmt.FIXED, self.variables[rest[0]]
        function, block, column = rest
        number = self.block_number(line, block)
        return fmt.aggregate(function, number, 0 if column is None else self.output_column(line, block, column))


def place(line, digits):
    if not 0 <= int(digits) <= 255:
        line.fail(f"{digits} is no column's place")
    return int(digits)


def elements_of(block):
    """The elements of a named block, in the order written."""
    return ([entry for _, entries in block.relation_rows for entry in entries.values()]
            + [element for _, left, right in block.conditions for element in (left, right)]
            + [element for element, _ in block.output or []])


def number_variables(parsed):
    """v0 to v15 have the numbers in their names; others the lowest left, in the order in which they appear."""
    uses = [(line, rest[0]) for block in parsed.blocks.values()
            for line, word, *rest in elements_of(block) if word in ("variable", "fixed")]
    own = {f"v{number}": number for number in range(VARIABLES)}
    numbers = {name: own[name] for _, name in uses if name in own}
    left = [number for number in range(VARIABLES) if number not in numbers.values()]
    for line, name in uses:
        if name not in numbers:
            if not left:
                line.fail(f"{name} is one variable more than sixteen")
            numbers[name] = left.pop(0)
    return numbers


def build_block(names, named):
    """The block with its names looked up."""
    if named.output is None:
        named.line.fail("this block has no give")
    block = fmt.BlockText(fmt.NO_PARENT if named.parent is None else names.blocks.index(named.parent))
    for table, entries in named.relation_rows:
        block.relation_rows.append((names.tables.index(table), [
            names.element(entries[column]) if column in entries else (fmt.EMPTY, 0)
            for column in range(len(names.table_columns(table)))]))
    for operator, left, right in named.conditions:
        block.conditions.append((operator, names.element(left), names.element(right)))
    block.output = [names.element(element) for element, _ in named.output]
    return block


def path_column(names, line, block, column):
    """The place of a plan's column, given by its place or its name in the table of the first live relation row."""
    if NUMBER.match(column):
        return place(line, column)
    live = [table for table, entries in names.parsed.blocks[block].relation_rows
            if any(entry[1] != "empty" for entry in entries.values())]
    if not live:
        line.fail(f"block {block} has no relation row to scan")
    if column not in names.table_columns(live[0]):
        line.fail(f"table {live[0]} has no column {column}")
    return names.table_columns(live[0]).index(column)


def build_plan(names):
    """The plan's bytes; a block that the plan leaves out is by file."""
    if names.parsed.raw_plan is not None:
        return names.parsed.raw_plan
    paths = [(0, 0)] * len(names.blocks)
    for block, (line, path, column) in names.parsed.paths.items():
        number = names.block_number(line, block)
        paths[number] = (path, 0 if column is None else path_column(names, line, block, column))
    return fmt.plan_bytes(paths)


def build(parsed):
    """The job of a parsed text."""
    names = Names(parsed)
    tables = [(len(table.columns), table.rows) for table in parsed.tables.values()]
    blocks = [build_block(names, block) for block in parsed.blocks.values()]
    return fmt.Job(fmt.data_words(tables), fmt.question_bytes(blocks), build_plan(names),
                   parsed.budget, tuple(parsed.lengths))
