"""A question read from its file over given tables, with its numbers looked up and its names kept for telling."""

import struct
from dataclasses import dataclass

import format as fmt
from csv_tables import Mistake, name_fault, text_of
from text.lines import NotationError
from text.names import Names, build_block, build_plan
from text.parser import Parser


@dataclass
class Question:
    """Tables, blocks and plan by number, and what each number is called."""
    tables: list            # (name, [column name], [row])
    blocks: list            # fmt.BlockText
    block_names: list
    titles: list            # of each block's output columns
    variable_names: dict    # by number
    plan: bytes
    budget: int = fmt.LISTING_BUDGET
    lengths: tuple = tuple(fmt.BUFFER_WORDS)

    def job(self):
        """The job as the listing reads it."""
        data = fmt.data_words([(len(columns), rows) for _, columns, rows in self.tables])
        return fmt.job_bytes(fmt.Job(data, fmt.question_bytes(self.blocks), self.plan))


class FrontParser(Parser):
    """The notation over tables that are given beforehand."""

    def __init__(self, text, given):
        self.given = given
        super().__init__(text)

    @property
    def tables(self):
        return self.known

    @tables.setter
    def tables(self, written):
        self.known = {**self.given, **written}

    def relation_row(self, line):
        name = line.next()
        if self.block is not None and name_fault(name, "a table's") is None and name not in self.tables:
            line.fail(f"no table {name}, neither above nor among the CSV files")
        super().relation_row(line)


def read_question(path, tables):
    """The question in a file over these tables and its own."""
    text = text_of(path)
    try:
        parsed = FrontParser(text, tables)
        names = Names(parsed)
        question = Question(
            [(name, table.columns, table.rows) for name, table in parsed.tables.items()],
            [build_block(names, block) for block in parsed.blocks.values()],
            names.blocks,
            [[title_of(parsed, *column) for column in block.output] for block in parsed.blocks.values()],
            {number: name for name, number in names.variables.items()},
            build_plan(names), parsed.budget, tuple(parsed.lengths))
        question.job()
        return question
    except NotationError as error:
        raise Mistake(f"{path}, {error}") from error
    except (ValueError, struct.error) as error:
        raise Mistake(f"{path}: too much of something to be put in bytes ({error})") from error


def title_of(parsed, element, title):
    """What an output column is called: by `as`, by its variable, or by the aggregate as written."""
    _, word, *rest = element
    if title is not None:
        return title
    if word == "variable":
        return rest[0]
    function, block, column = rest
    return f"{fmt.FUNCTIONS[function]}({block}{'' if column is None else '.' + column_name(parsed, block, column)})"


def column_name(parsed, block, column):
    """The name of a block's output column that may be given by its place."""
    output = parsed.blocks[block].output or []
    if column.isdecimal() and int(column) < len(output):
        element, title = output[int(column)]
        return title or (element[2] if element[1] == "variable" else column)
    return column
