"""Mistakes and doubts in a question, each with its line.

Mistakes are those of the notation, of names, of what is set against each other, and the causes 1 to 11, as far as they can
be told without running. Doubts (warnings) do not stop a question: a sum or an average that would count equal values of
different rows once, a least, greatest or average of a block that can be empty, a variable that looks like a text.
"""

import difflib

from text import format as fmt
from text.lines import NotationError
from text.parser import Parser, Table

from .causes import CAUSES
from .fitting import Fitted
from .tables import Mistake
from .trees import AVE, MAX, MIN, SUM, aggregate_of, elements_of, live_rows, of_kind

LEAST_LETTERS = 3           # of a variable that may be a text


def assumed_tables(text):
    """The tables that a question names, without rows, where no table is given: each has the columns that are named."""
    parsed = Parser(text, told=lambda error: None)
    tables = {}
    for row in (row for block in parsed.blocks.values() for row in block.relation_rows):
        if row.table not in parsed.written:
            table = tables.setdefault(row.table, Table(row.table, []))
            table.columns += [column for column in row.entries if column not in table.columns]
    for table in tables.values():
        table.columns = table.columns or ["none"]
    return tables


def checked(text, tables, options):
    """The mistakes and the doubts, in words."""
    mistakes = []
    parsed = Parser(text, tables or assumed_tables(text), mistakes.append)
    try:
        fitted = Fitted(parsed, options, mistakes.append)
        if mistakes:
            return [str(mistake) for mistake in sorted(mistakes, key=lambda each: each.line)], []
        question = fitted.fit()
    except (Mistake, NotationError) as mistake:
        return [str(mistake)], []
    for number, cause in CAUSES.items():
        words = cause(question)
        if words:
            return [f"no {number}: {words}"], []
    return [], doubts_of(fitted)


def doubts_of(fitted):
    """The doubts of a fitted question, in the order of its lines."""
    found = {doubt for block in fitted.names.numbered for element in of_kind(block, fmt.AGGREGATE)
             for doubt in aggregate_doubts(fitted, block, element)}
    found |= set(lone_texts(fitted))
    return [f"line {line}: {words}" for line, words in sorted(found)]


def aggregate_doubts(fitted, block, element):
    function, child, _ = aggregate_of(element)
    inner, words = fitted.names.numbered[child], fitted.element_text(element)
    name = fitted.names.blocks[child]
    if function in (SUM, AVE):
        rows = [place for place in range(len(live_rows(inner))) if lacks_key(fitted, inner, place)]
        for place in rows[:1]:
            yield element.line, f"{words}: {lacks_key(fitted, inner, place)}"
    if function in (MIN, MAX, AVE) and (live_rows(inner) or inner.conditions):
        in_condition = any(element in condition for condition in block.conditions)
        yield element.line, f"{words} is absent where {name} has no rows: " + (
            "no condition on it holds then" if in_condition else "it is printed as - then")


def lacks_key(fitted, block, place):
    """Why the output of a block does not tell the rows of a table apart, "" where it does."""
    table_number, entries = live_rows(block)[place]
    given = {element.argument for element in block.output if element.kind == fmt.VARIABLE}
    known = [column for column, entry in enumerate(entries)
             if entry.kind in (fmt.CONSTANT, fmt.FIXED) or (entry.kind == fmt.VARIABLE and entry.argument in given)]
    table = fitted.tables[table_number]
    name = block_name(fitted, block)
    if not table.rows:
        return f"{name} gives one column, of which equal values count once: give a key too" \
            if len(block.output) == 1 and not has_aggregate(block) else ""
    met = {}
    for row in fitted.rows[table_number]:
        cells = table.rows[row]
        if not meets_constants(fitted, entries, cells):
            continue
        other = met.setdefault(tuple(cells[column] for column in known), row)
        differing = [column for column, (one, two) in enumerate(zip(table.rows[other], cells)) if one != two]
        if differing:
            return (f"equal values of different rows of {name} count once ({table.place_of(other)} and line "
                    f"{table.lines[row]}): give {table.columns[differing[0]]} too")
    return ""


def block_name(fitted, block):
    return fitted.names.blocks[fitted.names.numbered.index(block)]


def has_aggregate(block):
    return any(element.kind == fmt.AGGREGATE for element in block.output)


def meets_constants(fitted, entries, cells):
    return all(entry.kind != fmt.CONSTANT or entry.argument.text == cell for entry, cell in zip(entries, cells))


def lone_texts(fitted):
    """Variables that stand once and are close to a text of their column."""
    blocks = fitted.names.numbered
    uses = [element.argument for block in blocks for element in elements_of(block)
            if element.kind in (fmt.VARIABLE, fmt.FIXED)]
    names = {number: name for (_, name), number in fitted.names.variables.items()}
    for block in blocks:
        for table, entries in block.relation_rows:
            for place, entry in enumerate(entries):
                if entry.kind != fmt.VARIABLE or uses.count(entry.argument) > 1:
                    continue
                name = names[entry.argument]
                texts = {cell.casefold(): cell for cell in fitted.columns[table, place].cells()
                         if fitted.options.number(cell) is None}
                found = difflib.get_close_matches(name.casefold(), texts, n=1, cutoff=0.8) \
                    if len(name) >= LEAST_LETTERS else []
                if found:
                    yield entry.line, (f'{name} matches anything, a variable used once: write "{texts[found[0]]}" '
                                       "if the text is meant")


