"""The causes of refusal in words: for each number a function that finds the first cause in a question, or None.

Each supposes that no lower number applies. 12 and 13 are found by running (answering.py); 5 cannot be written in the
notation. PAPER has the paper's words for each number, for where no function finds the cause.
"""

import format as fmt
from naive.checks import ancestors_of

PAPER = {
    1: "work buffer short: 8,192 words for sets, 8,192 for aggregate files, 1,280 for indexes",
    2: "result under 2,048 words",
    3: "data counts, length or layout",
    4: "data value out of range",
    5: "question's records or their order, kinds, codes, argument bytes that must be 0, cut or tail",
    6: "a count limit: blocks (none, or over five), relation rows, conditions, output columns (none, or over four), "
       "aggregates",
    7: "absent table, entry count not its columns, variable not 0 to 15, parent not an earlier block, fifth level, "
       "aggregate not of a child, absent column",
    8: "variable in two blocks, in a condition or the output list but in no relation row of its block, fixed variable "
       "of no ancestor",
    9: "sum or ave of a ratio column",
    10: "constant beyond ±1,000,000,000,000,000",
    11: "plan malformed or not admitted",
    12: "trials exceed the budget",
    13: "a set has over 256 rows",
}
FILE, INDEX, MERGING = range(3)
COUNT, SUM, MIN, MAX, AVE = range(5)
LARGEST_CONSTANT = 1_000_000_000_000_000


# What a block has. Elements are pairs of kind and argument (tests/format.py).

def elements_of(block):
    """All elements, in the order written."""
    return ([entry for _, entries in block.relation_rows for entry in entries]
            + [element for _, left, right in block.conditions for element in (left, right)] + list(block.output))


def of_kind(block, kind):
    return [argument for found, argument in elements_of(block) if found == kind]


def aggregates_of(block):
    """(function, block, column) of each aggregate."""
    return [split(argument) for argument in of_kind(block, fmt.AGGREGATE)]


def split(argument):
    return argument & 255, argument >> 8 & 255, argument >> 16 & 255


def children_of(block):
    """The blocks that its aggregates name."""
    return sorted({child for _, child, _ in aggregates_of(block)})


def is_plain(condition):
    return all(kind != fmt.AGGREGATE for kind, _ in condition[1:])


def live_rows(block):
    """The relation rows that have an entry."""
    return [row for row in block.relation_rows if any(kind != fmt.EMPTY for kind, _ in row[1])]


# How blocks stand to each other, where every parent is an earlier block.

def levels_of(blocks):
    return [1 + len(ancestors_of(blocks, number)) for number in range(len(blocks))]


def subtree_of(blocks, number):
    """The block and all below it."""
    return {place for place in range(len(blocks)) if place == number or number in ancestors_of(blocks, place)}


# How things are called.

def block_name(question, number):
    return f"block {question.block_names[number]}" if number < len(question.block_names) else f"block {number}"


def variable_name(question, number):
    return question.variable_names.get(number, f"v{number}")


def column_name(question, table, column):
    columns = question.tables[table][1]
    return columns[column] if column < len(columns) else str(column)


def aggregate_text(question, aggregate):
    function, block, column = aggregate
    name = question.block_names[block] if block < len(question.block_names) else str(block)
    if function == COUNT:
        return f"count({name})"
    titles = question.titles[block] if block < len(question.titles) else []
    return f"{fmt.FUNCTIONS[function]}({name}.{titles[column] if column < len(titles) else column})"


def joined(names):
    return " and ".join([", ".join(names[:-1]), names[-1]] if len(names) > 1 else names)


def many(number, what):
    return f"{number:,} {what}" if number == 1 else f"{number:,} {what}s"


# One function for each number.

def work_buffer_short(question):
    for place in (1, 2, 3):
        if question.lengths[place] < fmt.BUFFER_WORDS[place]:
            return lent(question, place)
    return None


def result_short(question):
    return lent(question, 0) if question.lengths[0] < fmt.BUFFER_WORDS[0] else None


def lent(question, place):
    name, found, needed = fmt.BUFFER_NAMES[place], question.lengths[place], fmt.BUFFER_WORDS[place]
    return f"{name} is lent {found:,} words, {needed:,} are needed"


def data_badly_laid_out(question):
    if not 1 <= len(question.tables) <= 8:
        return f"{many(len(question.tables), 'table') if question.tables else 'no table'}, 1 to 8 are taken"
    for name, columns, rows in question.tables:
        if not 1 <= len(columns) <= 8:
            return f"{name} has {many(len(columns), 'column')}, a table has 1 to 8"
        if len(rows) > 256:
            return f"{name} has {many(len(rows), 'row')}, a table has at most 256"
    words = 1 + sum(2 + len(columns) * len(rows) for _, columns, rows in question.tables)
    return f"the tables take {words:,} words, at most 16,384 are taken" if words > 16_384 else None


def data_value_out_of_range(question):
    for name, columns, rows in question.tables:
        for number, row in enumerate(rows, start=1):
            for column, value in zip(columns, row):
                if abs(value) > 1_000_000:
                    return f"{name}, row {number}: {column} is {value:,}, values run from -1,000,000 to 1,000,000"
    return None


def question_malformed(_):
    return None


def count_over_its_limit(question):
    if not 1 <= len(question.blocks) <= 5:
        return f"{many(len(question.blocks), 'block') if question.blocks else 'no block'}, a question has 1 to 5"
    for number, block in enumerate(question.blocks):
        name = block_name(question, number)
        for what, found, most in (("relation row", len(block.relation_rows), 3),
                                  ("condition", len(block.conditions), 8), ("output column", len(block.output), 4)):
            if found > most:
                return f"{name} has {many(found, what)}, a block has at most {most}"
        if not block.output:
            return f"{name} gives nothing, a block gives 1 to 4 columns"
    named = [child for block in question.blocks for _, child, _ in aggregates_of(block)]
    for child in named:
        if named.count(child) > 3:
            return f"{many(named.count(child), 'aggregate')} name {block_name(question, child)}, at most three may"
    return None


def something_absent(question):
    blocks = question.blocks
    for number, block in enumerate(blocks):
        name = block_name(question, number)
        if (block.parent != fmt.NO_PARENT) if number == 0 else block.parent >= number:
            return f"the parent of {name} is no earlier block" if number else f"{name} is the first and has a parent"
        level = 1 + len(ancestors_of(blocks, number))
        if level > 4:
            return f"{name} is at level {level}, the deepest is 4"
        for table, entries in block.relation_rows:
            if table >= len(question.tables):
                return f"{name}: no table {table}"
            table_name, columns, _ = question.tables[table]
            if len(entries) != len(columns):
                return f"{table_name} has {many(len(columns), 'column')}, the row has {len(entries)}"
        for kind, argument in elements_of(block):
            if kind in (fmt.VARIABLE, fmt.FIXED) and not 0 <= argument <= 15:
                return f"{name}: variable {argument}, variables are numbered 0 to 15"
            if kind == fmt.AGGREGATE:
                fault = aggregate_fault(question, number, split(argument))
                if fault:
                    return f"{aggregate_text(question, split(argument))} in {name}: {fault}"
    return None


def aggregate_fault(question, number, aggregate):
    function, child, column = aggregate
    name = block_name(question, child)
    if child >= len(question.blocks):
        return f"there is no {name}"
    if child == 0 or question.blocks[child].parent != number:
        return f"{name} is no child of {block_name(question, number)}"
    found = len(question.blocks[child].output)
    if function != COUNT and column >= found:
        return f"{name} gives {many(found, 'column')}, numbered from 0"
    return None


def variable_misplaced(question):
    blocks = question.blocks
    own = [set(of_kind(block, fmt.VARIABLE)) for block in blocks]
    for number, block in enumerate(blocks):
        name = block_name(question, number)
        standing = {argument for _, entries in block.relation_rows
                    for kind, argument in entries if kind == fmt.VARIABLE}
        above = set().union(*(own[ancestor] for ancestor in ancestors_of(blocks, number)))
        for kind, argument in elements_of(block):
            variable = variable_name(question, argument)
            if kind == fmt.VARIABLE:
                for earlier in range(number):
                    if argument in own[earlier]:
                        return f"variable {variable} stands in {block_name(question, earlier)} and in {name}"
                if argument not in standing:
                    return f"variable {variable} stands in no relation row of {name}"
            if kind == fmt.FIXED and argument not in above:
                return f"^{variable} in {name}: {variable} is a variable of no block around it"
    return None


def is_ratio(blocks, element):
    """Ave is a ratio; min and max take the kind of their column; all else is whole."""
    kind, argument = element
    function, child, column = split(argument)
    if kind != fmt.AGGREGATE or function in (COUNT, SUM):
        return False
    return function == AVE or is_ratio(blocks, blocks[child].output[column])


def sum_of_a_ratio(question):
    for block in question.blocks:
        for aggregate in aggregates_of(block):
            function, child, column = aggregate
            if function in (SUM, AVE) and is_ratio(question.blocks, question.blocks[child].output[column]):
                return f"{aggregate_text(question, aggregate)}: only min and max are taken of a ratio column"
    return None


def constant_beyond(question):
    for number, block in enumerate(question.blocks):
        for value in of_kind(block, fmt.CONSTANT):
            if abs(value) > LARGEST_CONSTANT:
                return f"constant {value:,} in {block_name(question, number)} is beyond ±{LARGEST_CONSTANT:,}"
    return None


def plan_not_admitted(question):
    if len(question.plan) != 4 * len(question.blocks):
        return f"the plan has {many(len(question.plan), 'byte')}, four for each block are needed"
    records = [question.plan[at:at + 4] for at in range(0, len(question.plan), 4)]
    for number, record in enumerate(records):
        if record[:2] != b"PL" or record[2] > MERGING or (record[2] == FILE and record[3] != 0):
            return f"the plan of {block_name(question, number)}: {record.hex(' ')} is no record of a path"
    for number, record in enumerate(records):
        fault = path_fault(question, number, record[2], record[3])
        if fault:
            return f"the plan of {block_name(question, number)}: {fault}"
    return None


def path_fault(question, number, path, column):
    """Why a block does not admit a path, or None."""
    if path == FILE:
        return None
    word, rows = fmt.PATHS[path], live_rows(question.blocks[number])
    if not rows:
        return f"{word} wants a relation row with an entry"
    table, entries = rows[0]
    if column >= len(entries):
        return f"{question.tables[table][0]} has no column {column}"
    kind = entries[column][0]
    if path == INDEX:
        return None if kind in (fmt.CONSTANT, fmt.FIXED) else \
            f"index wants a constant or a fixed variable at column {column_name(question, table, column)}"
    if kind != fmt.FIXED:
        return f"merging wants a fixed variable at column {column_name(question, table, column)}"
    outside = outside_of(question.blocks, number)
    if len(outside) != 1:
        names = joined([variable_name(question, variable) for variable in outside])
        return f"merging wants one variable from outside, here and below {names} are used"
    return None


def outside_of(blocks, number):
    """The variables from outside that are used in the block and below it, ascending."""
    family = subtree_of(blocks, number)
    used = {argument for place in family for argument in of_kind(blocks[place], fmt.FIXED)}
    own = {argument for place in family for argument in of_kind(blocks[place], fmt.VARIABLE)}
    return sorted(used - own)


CAUSES = dict(enumerate([
    work_buffer_short, result_short, data_badly_laid_out, data_value_out_of_range, question_malformed,
    count_over_its_limit, something_absent, variable_misplaced, sum_of_a_ratio, constant_beyond, plan_not_admitted],
    start=1))
