"""What blocks have, and how they stand to each other. Elements are kind, argument and line (text/names.py)."""

from text import format as fmt

COUNT, SUM, MIN, MAX, AVE = range(5)


def elements_of(block):
    """All elements, in the order of the records."""
    return ([entry for _, entries in block.relation_rows for entry in entries]
            + [element for _, left, right in block.conditions for element in (left, right)] + list(block.output))


def of_kind(block, kind):
    return [element for element in elements_of(block) if element.kind == kind]


def aggregate_of(element):
    """Function, block and column of an aggregate."""
    return element.argument & 255, element.argument >> 8 & 255, element.argument >> 16 & 255


def children_of(block):
    """The blocks that its aggregates name."""
    return sorted({aggregate_of(element)[1] for element in of_kind(block, fmt.AGGREGATE)})


def is_plain(condition):
    return all(element.kind != fmt.AGGREGATE for element in condition[1:])


def live_rows(block):
    """The relation rows that have an entry."""
    return [row for row in block.relation_rows if any(entry.kind != fmt.EMPTY for entry in row[1])]


# Of blocks in which every parent is an earlier block.

def ancestors_of(blocks, number):
    """The blocks around a block, the nearest first."""
    parent = blocks[number].parent
    return [parent, *ancestors_of(blocks, parent)] if parent < number else []


def levels_of(blocks):
    return [1 + len(ancestors_of(blocks, number)) for number in range(len(blocks))]


def subtree_of(blocks, number):
    """The block and all below it."""
    return {place for place in range(len(blocks)) if place == number or number in ancestors_of(blocks, place)}


def outside_of(blocks, number):
    """The variables from outside that are used in the block and below it, ascending."""
    family = subtree_of(blocks, number)
    used = {element.argument for place in family for element in of_kind(blocks[place], fmt.FIXED)}
    own = {element.argument for place in family for element in of_kind(blocks[place], fmt.VARIABLE)}
    return sorted(used - own)


def is_ratio(blocks, element, deepest=5):
    """Ave is a ratio; min and max take the kind of their column; all else is whole. An aggregate that names no child's
    column counts as whole: the engine refuses it."""
    if element.kind != fmt.AGGREGATE or deepest == 0:
        return False
    function, child, column = aggregate_of(element)
    if function in (COUNT, SUM):
        return False
    named = child < len(blocks) and column < len(blocks[child].output)
    return function == AVE or (named and is_ratio(blocks, blocks[child].output[column], deepest - 1))
