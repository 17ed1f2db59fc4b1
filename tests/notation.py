"""A notation for tables, questions and plans by name, turned into job bytes and back.

  table pans (pan)                        # a table and its columns; one line of numbers for each row
    1
    2
  table samples (sample, pan, brix)
    11 1 910
    12 1 913
  block top                               # the first block; every later one says `in` and its parent
    pans (pan = P)                        # a relation row: column = entry; a column left out, or _, is empty
    where ave(each.brix) >= 911           # conditions, joined by `and` or on several lines
    give P, ave(each.brix)                # the output list
  block each in top
    samples (sample = S, pan = ^P, brix = B)
    give S, B as brix                     # `as` names an output column
  plan top file, each merging pan         # file | index COLUMN | merging COLUMN; a block left out is by file
  budget 8                                # left out: 1,000,000,000
  lend result 2047, sets 8192             # lengths of the lent buffers, in words, where not the required ones

An entry is a variable (P), a fixed variable of an outer block (^P), a number or _. A condition compares two of
variable, fixed variable, number and aggregate by = ≠ < ≤ > ≥ (also != <= >=). An aggregate is count(BLOCK) or sum,
min, max, ave of BLOCK.COLUMN. An output column is named by `as`, else by its variable; its place, from 0, serves too,
as does that of a table's column in a plan. Relation rows come first, then conditions, then one `give`.

Names are letters, digits and underscores, a letter first. Tables and blocks are numbered as they are written. The
variables v0 to v15 have the numbers in their names; others get the lowest number left, in the order in which they
appear. `plan hex 50 4c ..` gives the plan's bytes as they are. What can be written is not always accepted: a value
of 1000001 compiles, and is refused with number 4 by whoever runs it.

Command line: `notation.py compile FILE > job`, `notation.py show < job`.
"""

import sys

import format as fmt
from text.lines import NotationError
from text.names import build
from text.parser import Parser
from text.show import NotExpressible, show
from usage import help_first

__all__ = ["NotationError", "NotExpressible", "compile_text", "show"]


def compile_text(text):
    """The job that a text in the notation stands for."""
    return build(Parser(text))


def compile_file(path):
    """The job in a file; an error names the file and the line."""
    with open(path, encoding="utf-8") as file:
        try:
            return compile_text(file.read())
        except NotationError as error:
            sys.exit(f"{path}, {error}")


def main(arguments):
    if len(arguments) == 2 and arguments[0] == "compile":
        sys.stdout.buffer.write(fmt.job_bytes(compile_file(arguments[1])))
    elif arguments == ["show"]:
        try:
            (data, question, plan), = fmt.parts_of(sys.stdin.buffer.read(), [b"DA", b"QU", b"PN"])
            sys.stdout.write(show(fmt.Job(fmt.words_of(data), question, plan)))
        except (ValueError, NotExpressible) as error:
            sys.exit(f"no job that can be shown: {error}")
    else:
        sys.exit("usage: notation.py compile FILE > job | notation.py show < job")


if __name__ == "__main__":
    help_first(__doc__)
    main(sys.argv[1:])
