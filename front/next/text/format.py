"""The byte format of tables, questions, plans and jobs: all of tests/format.py. A question's elements may have more here
behind kind and argument (`Placed` of names.py).
"""

import sys
from pathlib import Path

sys.path.append(str(Path(__file__).resolve().parents[3] / "tests"))

import format as landed                 # noqa: E402
from format import *                    # noqa: E402, F403


def question_bytes(blocks):
    return landed.question_bytes([
        landed.BlockText(block.parent, [(table, pairs(entries)) for table, entries in block.relation_rows],
                         [(operator, *pairs(sides)) for operator, *sides in block.conditions], pairs(block.output))
        for block in blocks])


def pairs(elements):
    """Kind and argument of each element."""
    return [element[:2] for element in elements]


def many(number, what):
    """A number of things, in words."""
    return f"{number:,} {what}" if number == 1 else f"{number:,} {what}s"
