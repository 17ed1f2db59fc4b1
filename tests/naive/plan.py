"""The plan: its records, and which paths a block admits ("Plan and trials"). What fails is cause 11."""

from typing import NamedTuple

from .checks import outside_variables
from .matching import live
from .question import Constant, Fixed

FILE, INDEX, MERGING = range(3)


class Path(NamedTuple):
    path: int
    column: int


def read_plan(data, blocks):
    """One 4-byte record per block: PL, path 0 to 2, column (0 for file); None if malformed."""
    if len(data) != 4 * len(blocks):
        return None
    records = [data[at:at + 4] for at in range(0, len(data), 4)]
    for mark_1, mark_2, path, column in records:
        if bytes([mark_1, mark_2]) != b"PL" or path > MERGING or (path == FILE and column != 0):
            return None
    return [Path(record[2], record[3]) for record in records]


def admitted(blocks, number, path):
    """The two rules under "Plan and trials"; file is always admitted."""
    if path.path == FILE:
        return True
    rows = live(blocks[number])
    if not rows or path.column >= len(rows[0].entries):
        return False
    entry = rows[0].entries[path.column]
    if path.path == INDEX:
        return isinstance(entry, (Constant, Fixed))
    return isinstance(entry, Fixed) and len(outside_variables(blocks, number)) == 1


def admitted_paths(blocks, number):
    """Every path that the block admits, in byte order."""
    paths = [Path(FILE, 0)] + [Path(path, column) for path in (INDEX, MERGING) for column in range(8)]
    return [path for path in paths if admitted(blocks, number, path)]
