"""A question as it is sent to the engine: tables, blocks and plan by number, with what each number is called and where it
stands, and how the rows of the answer are read back."""

from dataclasses import dataclass, field
from fractions import Fraction

from text import format as fmt

TEXT, NUMBER, RATIO = "text", "number", "ratio"
INT_32, INT_64 = 2**31 - 1, 2**63 - 1
UNITS = {1: "tenths", 2: "hundredths", 3: "thousandths", 4: "ten-thousandths", 5: "hundred-thousandths", 6: "millionths"}


def unit(scale):
    """The power of ten in words."""
    return UNITS.get(scale, f"units of 10^-{scale}")


def within(value, most):
    """The value, or the nearest that can be written: out of the engine's range as well."""
    return max(-most, min(most, value))


@dataclass
class SentTable:
    """A table as sent: whole numbers, the columns that the question names."""
    name: str
    columns: list
    rows: list
    places: list = field(default_factory=list)      # where each row stands, in words
    cells: list = field(default_factory=list)       # the cells as written, row by row
    scales: list = field(default_factory=list)      # of each column: the power of ten
    finest: list = field(default_factory=list)      # of each column: what has so many decimals

    def place_of(self, row):
        return self.places[row] if self.places else f"{self.name}, row {row + 1}"


@dataclass
class OutputColumn:
    """How an output column is called and its values are read: a text by its rank, a number by its power of ten."""
    title: str
    kind: str = NUMBER
    scale: int = 0
    texts: list = field(default_factory=list)

    def value(self, numerator, denominator):
        """A text, a fraction, or None for an absent value."""
        if denominator == 0:
            return None
        if self.kind == TEXT:
            return self.texts[numerator]
        return Fraction(numerator, denominator * 10**self.scale)


@dataclass
class Question:
    """Tables, blocks and plan by number, and what each number is called."""
    tables: list            # SentTable
    blocks: list            # text.names.NumberedBlock
    block_names: list
    titles: list            # of each block's output columns
    variable_names: dict    # by number
    plan: bytes
    budget: int = fmt.LISTING_BUDGET
    lengths: tuple = tuple(fmt.BUFFER_WORDS)
    plan_line: int | None = None
    budget_line: int | None = None
    columns: list = field(default_factory=list)     # OutputColumn of each of block 0
    notes: list = field(default_factory=list)       # what the one who asks should know
    picks_plan: bool = False                        # no plan was written

    def job(self):
        """The job as the program reads it."""
        data = fmt.data_words([(len(table.columns), [[within(value, INT_32) for value in row] for row in table.rows])
                               for table in self.tables])
        return fmt.job_bytes(fmt.Job(data, fmt.question_bytes(self.blocks), self.plan))
