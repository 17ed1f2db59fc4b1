"""Has the built program named budgeted answer a question, and puts a refusal in words.

The program runs under the question's own budget, with full buffers; short ones (`lend`) are refused before it is run.
Where it refuses by 13 it names no block, so the block is found by asking it again (`alone`).
"""

import re
import subprocess
from dataclasses import replace

from text import format as fmt
from text.names import Placed

from .causes import CAUSES, PAPER, at
from .program import printed
from .tables import Mistake, WrongUse
from .trees import children_of, is_plain, levels_of, subtree_of

LONGEST_PART = 65_536
FIRST_LINE = re.compile(r"ok (\d+) (\d+) (\d+)$")
FALSE = (0, Placed(fmt.CONSTANT, 0), Placed(fmt.CONSTANT, 1))
MOST_CONDITIONS = 8
MOST_ASKED_AGAIN = 20_000_000       # trials: beyond it the large block is not looked for


class Refused(Exception):
    """A number and its cause in words."""

    def __init__(self, number, words):
        super().__init__(f"no {number}: {words}")
        self.number, self.words = number, words


def answered(question):
    """What the program answers: (0, rows, trials) or (number, None, None)."""
    try:
        text = printed("budgeted", fmt.budgeted_bytes(question.job(), question.budget))
    except subprocess.TimeoutExpired as error:
        raise WrongUse("the program budgeted has not answered in time") from error
    except (OSError, SystemExit) as error:      # it is not built, or cannot be run here
        raise WrongUse(str(error)) from error
    except ValueError as error:                 # counts that a byte cannot hold
        raise Mistake(f"too much of something to be put in bytes ({error})") from error
    lines = text.splitlines()
    if lines and re.fullmatch(r"no \d+", lines[0]):
        return int(lines[0][3:]), None, None
    if lines == ["bad job"]:
        raise Mistake(f"bad job: {bad_part(question)}")
    found = FIRST_LINE.match(lines[0]) if lines else None
    if found is None or len(lines) != 1 + int(found[1]):
        raise WrongUse(f"the program budgeted failed: {text.strip()}")
    rows = [[value_of(field) for field in line.split(" ")] for line in lines[1:]]
    return 0, rows, int(found[3])


def value_of(field):
    """Numerator and denominator; 0 and 0 for an absent value, printed as a minus sign."""
    if field == "-":
        return 0, 0
    numerator, _, denominator = field.partition("/")
    return int(numerator), int(denominator or 1)


def bad_part(question):
    """Which part of the job is too long for the program."""
    words = 1 + sum(2 + len(table.columns) * len(table.rows) for table in question.tables)
    for what, length in (("tables", 4 * words), ("question", len(fmt.question_bytes(question.blocks))),
                         ("plan", len(question.plan))):
        if length > LONGEST_PART:
            return f"the {what} would take {length:,} bytes, at most {LONGEST_PART:,} are read"
    return "the program cannot take the job apart"


def check_buffers(question):
    """Refused where a buffer that the question lends is short: the program lends full ones."""
    for number in (1, 2):
        words = CAUSES[number](question)
        if words:
            raise Refused(number, words)


def refusal(question, number):
    """The refusal by a number that the program gave."""
    if number == 12:
        return Refused(12, at(question.budget_line, f"over the budget of {question.budget:,} trials"))
    if number == 13:
        return Refused(13, large_words(question))
    return Refused(number, CAUSES[number](question) or PAPER[number])


def answer(question):
    """The rows and the trials by the question's plan; or Refused."""
    check_buffers(question)
    number, rows, trials = answered(question)
    if number != 0:
        raise refusal(question, number)
    return rows, trials


# Number 13: which block.

def quiet(block):
    """The block with its trials kept and no rows. Trials follow from relation rows, plain conditions and which children
    are named: a block that names none gets a condition that never holds; any other names the counts of its children,
    keeps its plain conditions, and wants a count below zero."""
    children = children_of(block)
    if not children:
        return replace(block, conditions=[FALSE])
    counts = [Placed(*fmt.aggregate(0, child)) for child in children]
    plain = [condition for condition in block.conditions if is_plain(condition)]
    return replace(block, conditions=[*plain, (2, counts[0], Placed(fmt.CONSTANT, 0))], output=counts)


def alone(question, number):
    """A question in which only the sets of this block and below it can be too large; None if there is none."""
    kept = subtree_of(question.blocks, number)
    blocks = [block if place in kept else quiet(block) for place, block in enumerate(question.blocks)]
    if any(len(block.conditions) > MOST_CONDITIONS for block in blocks):
        return None
    return replace(question, blocks=blocks, budget=MOST_ASKED_AGAIN)


def large_words(question):
    """The first of the deepest blocks with a set over 256 rows, found by asking for each block alone."""
    levels = levels_of(question.blocks)
    for number in sorted(range(len(question.blocks)), key=lambda place: -levels[place]):
        asked = alone(question, number)
        found = answered(asked)[0] if asked else 12
        if found == 12:
            break
        if found == 13:
            return at(question.blocks[number].line, f"a set of block {question.block_names[number]} has over 256 rows")
    return at(question.blocks[0].line, PAPER[13])
