"""The way back: a job shown in the notation, with names invented (t0, c0, b0, v0), so that it compiles to the same
bytes. It shows every question free of causes 3, 5 and 7, and every plan."""

import format as fmt
from naive.checks import something_absent
from naive.matching import live
from naive.plan import FILE, read_plan
from naive.question import Aggregate, Constant, Empty, Fixed, Malformed, Variable, read_question
from naive.tables import laid_out, tables_of


class NotExpressible(Exception):
    """What keeps a job from being shown."""


def show(job):
    """The text of a job."""
    if not laid_out(job.data):
        raise NotExpressible("the data are badly laid out")
    tables = tables_of(job.data)
    try:
        blocks = read_question(job.question)
    except Malformed as error:
        raise NotExpressible(f"the question is malformed: {error}") from error
    if something_absent(blocks, tables):
        raise NotExpressible("the question names something absent")
    lines = [line for number, table in enumerate(tables) for line in table_lines(number, table)]
    for number, block in enumerate(blocks):
        lines += block_lines(number, block, named_columns(blocks, number))
    return "\n".join(lines + [plan_line(job.plan, blocks)] + rest_lines(job)) + "\n"


def table_lines(number, table):
    yield f"table t{number} ({', '.join(f'c{column}' for column in range(table.columns))})"
    for row in table.rows:
        yield "  " + " ".join(map(str, row))


def named_columns(blocks, number):
    """The output columns of a block that aggregates name."""
    return {aggregate.column for block in blocks for aggregate in block.aggregates()
            if aggregate.block == number and aggregate.function != 0}


def block_lines(number, block, named):
    yield f"block b{number}" + (f" in b{block.parent}" if number > 0 else "")
    for row in block.relation_rows:
        entries = [f"c{column} = {element_text(entry)}" for column, entry in enumerate(row.entries)
                   if not isinstance(entry, Empty)]
        yield f"  t{row.table} ({', '.join(entries)})"
    for condition in block.conditions:
        left, right = map(element_text, condition.elements())
        yield f"  where {left} {fmt.OPERATORS[condition.operator]} {right}"
    columns = [element_text(element) + (f" as c{column}" if column in named else "")
               for column, element in enumerate(block.output)]
    yield f"  give {', '.join(columns)}".rstrip()


def element_text(element):
    if isinstance(element, Constant):
        return str(element.value)
    if isinstance(element, Variable):
        return f"v{element.number}"
    if isinstance(element, Fixed):
        return f"^v{element.number}"
    assert isinstance(element, Aggregate)
    column = f".c{element.column}" if element.function != 0 else ""
    return f"{fmt.FUNCTIONS[element.function]}(b{element.block}{column})"


def plan_line(plan, blocks):
    """The plan by name, or its bytes where they are not records of paths."""
    paths = read_plan(plan, blocks)
    if not paths:
        return "plan hex " + plan.hex(" ")
    return "plan " + ", ".join(
        f"b{number} {fmt.PATHS[path.path]}" + ("" if path.path == FILE else f" {column_text(blocks[number], path)}")
        for number, path in enumerate(paths))


def column_text(block, path):
    rows = live(block)
    return f"c{path.column}" if rows and path.column < len(rows[0].entries) else str(path.column)


def rest_lines(job):
    """Budget and buffer lengths, where they are not the usual ones."""
    lent = [f"{name} {length}" for name, length, usual in zip(fmt.BUFFER_NAMES, job.lengths, fmt.BUFFER_WORDS)
            if length != usual]
    return ([f"budget {job.budget}"] if job.budget != fmt.LISTING_BUDGET else []) + \
           ([f"lend {', '.join(lent)}"] if lent else [])
