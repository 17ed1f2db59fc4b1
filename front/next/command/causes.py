"""The causes of refusal in words: for each number a function that finds the first cause in a question, or None.

Each supposes that no lower number applies. 12 and 13 are found by running (answering.py); 5 cannot be written in the
notation. PAPER has the paper's words for each number, for where no function finds the cause. From 4 on a cause begins with
its line. The names of things, PAPER and what needs no line are those of front/causes.py.
"""

import sys
from pathlib import Path

from text import format as fmt
from text.format import many
from text.hints import close

from .question import unit
from .trees import AVE, SUM, aggregate_of, ancestors_of, elements_of, is_ratio, live_rows, of_kind, outside_of

sys.path.append(str(Path(__file__).resolve().parents[2]))

from causes import (FILE, INDEX, LARGEST_CONSTANT, MERGING, PAPER, aggregate_fault, aggregate_text,     # noqa: E402, F401
                    block_name, joined, question_malformed, result_short, variable_name, work_buffer_short)

LARGEST_VALUE = 1_000_000


# How things are called.

def at(line, words):
    """A cause with its line, where the question was written in lines."""
    return f"line {line}: {words}" if line else words


def column_name(question, table, column):
    columns = question.tables[table].columns
    return columns[column] if column < len(columns) else str(column)


# One function for each number.

def data_badly_laid_out(question):
    if not 1 <= len(question.tables) <= 8:
        return f"{many(len(question.tables), 'table') if question.tables else 'no table'}, 1 to 8 are taken"
    for table in question.tables:
        if not 1 <= len(table.columns) <= 8:
            return f"of {table.name} {many(len(table.columns), 'column')} are named, 1 to 8 are taken"
        if len(table.rows) > 256:
            return f"{table.name} has {many(len(table.rows), 'row')}, a table has at most 256"
    words = 1 + sum(2 + len(table.columns) * len(table.rows) for table in question.tables)
    return f"the tables take {words:,} words, at most 16,384 are taken" if words > 16_384 else None


def data_value_out_of_range(question):
    for table in question.tables:
        for number, row in enumerate(table.rows):
            for place, value in enumerate(row):
                if abs(value) > LARGEST_VALUE:
                    return f"{table.place_of(number)}: {value_words(table, number, place, value)}"
    return None


def value_words(table, row, place, value):
    """A value out of range, as it is written, and the range."""
    scale = table.scales[place] if table.scales else 0
    written = table.cells[row][place] if table.cells else f"{value:,}"
    most = LARGEST_VALUE // 10**scale
    words = f"{table.columns[place]} is {written}, values run from -{most:,} to {most:,}"
    return f"{words} in {unit(scale)} ({table.finest[place]})" if scale else words


def count_over_its_limit(question):
    blocks = question.blocks
    if not 1 <= len(blocks) <= 5:
        return at(blocks[5].line if blocks else 1,
                  f"{many(len(blocks), 'block') if blocks else 'no block'}, a question has 1 to 5")
    for number, block in enumerate(blocks):
        name = block_name(question, number)
        lines = block.row_lines, block.condition_lines, [element.line for element in block.output]
        parts = block.relation_rows, block.conditions, block.output
        for what, most, part, placed in zip(("relation row", "condition", "output column"), (3, 8, 4), parts, lines):
            if len(part) > most:
                return at(placed[most] if placed else 0,
                          f"{name} has {many(len(part), what)}, a block has at most {most}")
        if not block.output:
            return at(block.line, f"{name} gives nothing, a block gives 1 to 4 columns")
    named = [(aggregate_of(element)[1], element.line) for block in blocks for element in of_kind(block, fmt.AGGREGATE)]
    for child in dict.fromkeys(child for child, _ in named):
        lines = [line for found, line in named if found == child]
        if len(lines) > 3:
            return at(lines[3], f"{many(len(lines), 'aggregate')} name {block_name(question, child)}, at most three may")
    return None


def something_absent(question):
    for number, block in enumerate(question.blocks):
        fault = block_fault(question, number) or rows_fault(question, number) or elements_fault(question, number)
        if fault:
            return fault
    return None


def block_fault(question, number):
    block, name = question.blocks[number], block_name(question, number)
    if (block.parent != fmt.NO_PARENT) if number == 0 else block.parent >= number:
        return at(block.line, f"the parent of {name} is no earlier block" if number else
                  f"{name} is the first and has a parent")
    level = 1 + len(ancestors_of(question.blocks, number))
    return at(block.line, f"{name} is at level {level}, the deepest is 4") if level > 4 else None


def rows_fault(question, number):
    block = question.blocks[number]
    for place, (table, entries) in enumerate(block.relation_rows):
        line = block.row_lines[place] if block.row_lines else 0
        if table >= len(question.tables):
            return at(line, f"{block_name(question, number)}: no table {table}")
        found = question.tables[table]
        if len(entries) != len(found.columns):
            return at(line, f"{found.name} has {many(len(found.columns), 'column')}, the row has {len(entries)}")
    return None


def elements_fault(question, number):
    name = block_name(question, number)
    for element in elements_of(question.blocks[number]):
        if element.kind in (fmt.VARIABLE, fmt.FIXED) and not 0 <= element.argument <= 15:
            return at(element.line, f"{name}: variable {element.argument}, variables are numbered 0 to 15")
        if element.kind == fmt.AGGREGATE:
            fault = aggregate_fault(question, number, aggregate_of(element))
            if fault:
                return at(element.line, f"{aggregate_text(question, aggregate_of(element))} in {name}: {fault}")
    return None


def variable_misplaced(question):
    blocks = question.blocks
    own = [{element.argument for element in of_kind(block, fmt.VARIABLE)} for block in blocks]
    for number, block in enumerate(blocks):
        standing = {entry.argument for _, entries in block.relation_rows
                    for entry in entries if entry.kind == fmt.VARIABLE}
        around = set().union(*(own[ancestor] for ancestor in ancestors_of(blocks, number)))
        for element in elements_of(block):
            if element.kind == fmt.VARIABLE:
                earlier = [place for place in range(number) if element.argument in own[place]]
                fault = variable_fault(question, number, element, earlier, standing)
            elif element.kind == fmt.FIXED and element.argument not in around:
                fault = fixed_fault(question, number, element, around)
            else:
                fault = None
            if fault:
                return at(element.line, fault)
    return None


def variable_fault(question, number, element, earlier, standing):
    """Why a variable cannot stand in its block, or None."""
    variable, name = variable_name(question, element.argument), block_name(question, number)
    if earlier and earlier[0] in ancestors_of(question.blocks, number):
        return f"{variable} belongs to {block_name(question, earlier[0])}: write ^{variable}"
    if earlier:
        return f"variable {variable} stands in {block_name(question, earlier[0])} and in {name}"
    if element.argument not in standing:
        known = [variable_name(question, each) for each in sorted(standing)]
        return f"variable {variable} stands in no relation row of {name}" + instead(variable, known)
    return None


def fixed_fault(question, number, element, around):
    variable = variable_name(question, element.argument)
    known = [variable_name(question, each) for each in sorted(around)]
    return (f"^{variable} in {block_name(question, number)}: {variable} is a variable of no block around it"
            + instead(variable, known))


def instead(name, known):
    """The name that may be meant, or those that there are."""
    return close(name, known) or (f": there {'stands' if len(known) == 1 else 'stand'} {joined(known)}" if known else "")


def sum_of_a_ratio(question):
    for block in question.blocks:
        for element in of_kind(block, fmt.AGGREGATE):
            function, child, column = aggregate_of(element)
            if function in (SUM, AVE) and is_ratio(question.blocks, question.blocks[child].output[column]):
                words = aggregate_text(question, (function, child, column))
                return at(element.line, f"{words}: only count, min and max are taken of a ratio column")
    return None


def constant_beyond(question):
    for number, block in enumerate(question.blocks):
        for element in of_kind(block, fmt.CONSTANT):
            if abs(element.argument) > LARGEST_CONSTANT:
                written = element.written or f"{element.argument:,}"
                scaled = "" if written.replace(",", "") == str(element.argument) else " when scaled"
                return at(element.line, f"constant {written} in {block_name(question, number)} is beyond "
                                        f"±{LARGEST_CONSTANT:,}{scaled}")
    return None


def plan_not_admitted(question):
    if len(question.plan) != 4 * len(question.blocks):
        return at(question.plan_line,
                  f"the plan has {many(len(question.plan), 'byte')}, four for each block are needed")
    records = [question.plan[start:start + 4] for start in range(0, len(question.plan), 4)]
    for number, record in enumerate(records):
        if record[:2] != b"PL" or record[2] > MERGING or (record[2] == FILE and record[3] != 0):
            return at(question.plan_line,
                      f"the plan of {block_name(question, number)}: {record.hex(' ')} is no record of a path")
    for number, record in enumerate(records):
        fault = path_fault(question, number, record[2], record[3])
        if fault:
            return at(question.plan_line, f"the plan of {block_name(question, number)}: {fault}")
    return None


def path_fault(question, number, path, column):
    """Why a block does not admit a path, or None."""
    if path == FILE:
        return None
    word, rows = fmt.PATHS[path], live_rows(question.blocks[number])
    if not rows:
        return f"{word} wants a relation row with an entry"
    table, entries = rows[0]
    if column >= len(entries):
        return f"{question.tables[table].name} has no column {column}"
    kind = entries[column].kind
    if path == INDEX:
        return None if kind in (fmt.CONSTANT, fmt.FIXED) else \
            f"index wants a constant or a fixed variable at column {column_name(question, table, column)}"
    if kind != fmt.FIXED:
        return f"merging wants a fixed variable at column {column_name(question, table, column)}"
    outside = outside_of(question.blocks, number)
    if len(outside) != 1:
        names = joined([variable_name(question, variable) for variable in outside])
        return f"merging wants one variable from outside, here and below {names} are used"
    return None


CAUSES = dict(enumerate([
    work_buffer_short, result_short, data_badly_laid_out, data_value_out_of_range, question_malformed,
    count_over_its_limit, something_absent, variable_misplaced, sum_of_a_ratio, constant_beyond, plan_not_admitted],
    start=1))
