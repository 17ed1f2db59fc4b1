"""Causes 6 to 10, judged on the blocks read ("The question", "Matching", "Causes of refusal").

Each test supposes that no lower cause applies: the lowest number is the one given.
"""

from .question import AVE, COUNT, MAX, MIN, SUM, Aggregate, Constant, Fixed, Variable

MOST_BLOCKS = 5
MOST_RELATION_ROWS = 3
MOST_CONDITIONS = 8
MOST_OUTPUT = 4
MOST_AGGREGATES = 3
DEEPEST_LEVEL = 4
VARIABLES = 16
LARGEST_CONSTANT = 1_000_000_000_000_000


def over_a_limit(blocks):
    """Cause 6: blocks, RW, CD, output columns, aggregates naming one block number, absent or not."""
    if not 1 <= len(blocks) <= MOST_BLOCKS:
        return True
    for block in blocks:
        if len(block.relation_rows) > MOST_RELATION_ROWS or len(block.conditions) > MOST_CONDITIONS:
            return True
        if not 1 <= len(block.output) <= MOST_OUTPUT:
            return True
    named = [aggregate.block for block in blocks for aggregate in block.aggregates()]
    return any(named.count(number) > MOST_AGGREGATES for number in named)


def something_absent(blocks, tables):
    """Cause 7: tables, entry counts, variable numbers, parents, levels, aggregates and their columns."""
    return (any(relation_row_wrong(row, tables) for block in blocks for row in block.relation_rows)
            or any(variable_number_wrong(element) for block in blocks for element in block.elements())
            or any(parent_wrong(blocks, number) for number in range(len(blocks)))
            or any(level_of(blocks, number) > DEEPEST_LEVEL for number in range(len(blocks)))
            or any(aggregate_wrong(blocks, number, aggregate)
                   for number, block in enumerate(blocks) for aggregate in block.aggregates()))


def relation_row_wrong(row, tables):
    """Absent table, or entry count not its columns; of a row all empty too."""
    return row.table >= len(tables) or len(row.entries) != tables[row.table].columns


def variable_number_wrong(element):
    return isinstance(element, (Variable, Fixed)) and not 0 <= element.number < VARIABLES


def parent_wrong(blocks, number):
    """The parent is an earlier block; 255 for block 0."""
    parent = blocks[number].parent
    return parent != 255 if number == 0 else parent >= number


def level_of(blocks, number):
    """Block 0 is level 1, a child one more than its parent."""
    return 1 if number == 0 else 1 + level_of(blocks, blocks[number].parent)


def aggregate_wrong(blocks, number, aggregate):
    """It names a child of its own block, and but for count one of the child's output columns."""
    if aggregate.block >= len(blocks) or aggregate.block == 0 or blocks[aggregate.block].parent != number:
        return True
    return aggregate.function != COUNT and aggregate.column >= len(blocks[aggregate.block].output)


def variables_of(block):
    """The variables that stand in the block as kind 2."""
    return {element.number for element in block.elements() if isinstance(element, Variable)}


def ancestors_of(blocks, number):
    """The proper ancestors, nearest first."""
    found = []
    while number != 0:
        number = blocks[number].parent
        found.append(number)
    return found


def outside_variables(blocks, number):
    """Variables from outside used in the block and below it: fixed there, and of no block there."""
    family = [below for below in range(len(blocks)) if below == number or number in ancestors_of(blocks, below)]
    used = {element.number for below in family for element in blocks[below].elements() if isinstance(element, Fixed)}
    own = set().union(*(variables_of(blocks[below]) for below in family))
    return used - own


def variable_misplaced(blocks):
    """Cause 8: in two blocks; in CD or OL but in no RW of its block; fixed, of no ancestor."""
    return (variable_in_two_blocks(blocks)
            or any(variable_in_no_relation_row(block) for block in blocks)
            or any(fixed_of_no_ancestor(blocks, number) for number in range(len(blocks))))


def variable_in_two_blocks(blocks):
    return any(variables_of(blocks[first]) & variables_of(blocks[second])
               for first in range(len(blocks)) for second in range(first))


def variable_in_no_relation_row(block):
    standing = {entry.number for row in block.relation_rows for entry in row.entries if isinstance(entry, Variable)}
    return not variables_of(block) <= standing


def fixed_of_no_ancestor(blocks, number):
    above = set().union(*(variables_of(blocks[ancestor]) for ancestor in ancestors_of(blocks, number)))
    return any(isinstance(element, Fixed) and element.number not in above
               for element in blocks[number].elements())


def is_ratio(blocks, element):
    """Variables, constants, count and sum are whole; ave is ratio; min and max take the kind of their column."""
    if not isinstance(element, Aggregate) or element.function in (COUNT, SUM):
        return False
    if element.function == AVE:
        return True
    assert element.function in (MIN, MAX)
    return is_ratio(blocks, blocks[element.block].output[element.column])


def sum_of_a_ratio(blocks):
    """Cause 9: sum or ave of a ratio column, in blocks never evaluated too."""
    return any(aggregate.function in (SUM, AVE)
               and is_ratio(blocks, blocks[aggregate.block].output[aggregate.column])
               for block in blocks for aggregate in block.aggregates())


def constant_beyond(blocks):
    """Cause 10: a constant beyond ±1,000,000,000,000,000."""
    return any(isinstance(element, Constant) and abs(element.value) > LARGEST_CONSTANT
               for block in blocks for element in block.elements())
