"""Every question under tests/questions, asked by the command: its number, rows, values and trials are those stored."""

import json
import re
from fractions import Fraction

from command.causes import PAPER

from .common import TESTS, abe, check

FOOTER = re.compile(r"([\d,]+) rows?, ([\d,]+) trials?")
REFUSED = re.compile(r"no (\d+): ")
LINE = re.compile(r"no \d+: (line \d+|\S+, line \d+)")


def value_of(field):
    return None if field == "-" else Fraction(field)


def fields_of(row):
    """The values of a row in JSON; a ratio's decimal, which must be near its fraction, is left out."""
    values = []
    for name, field in row.items():
        if name.endswith(" decimal"):
            if field is not None and abs(Fraction(field) - values[-1]) > abs(values[-1]) / 10**14:
                raise ValueError(f"{field} beside {values[-1]}")
        else:
            values.append(None if field is None else Fraction(field))
    return values


def figures_of(status, out, err):
    """Number, rows, trials and the values that the command printed."""
    if status == 1:
        return int(REFUSED.match(err)[1]), 0, None, []
    rows, trials = (int(figure.replace(",", "")) for figure in FOOTER.search(err).groups())
    return 0, rows, trials, [fields_of(row) for row in json.loads(out, parse_float=str, parse_int=str)]


def question(path):
    first, *lines = path.with_suffix(".out").read_text().splitlines()
    number, rows, _, trials = map(int, first.split())
    expected = [[value_of(field) for field in line.split()] for line in lines]
    status, out, err = abe("--format", "json", "--plan", "written", path)
    try:
        same = figures_of(status, out, err) == (number, rows, trials if number == 0 else None, expected)
    except (ValueError, TypeError):
        same = False
    told = number == 0 or (out == "" and err.count("\n") == 1 and PAPER[number] not in err
                           and (number < 4 or LINE.match(err) is not None or number == 12))
    check(f"question {path.stem}", same and told, err.splitlines()[-1] if err else "")


def picked(paths):
    """Where no plan is written the command finds one: the same rows, never more trials than by file."""
    wrong = asked = 0
    for path in paths:
        _, by_file, told = abe("--format", "csv", "--plan", "file", path)
        if FOOTER.search(told):
            _, by_best, best = abe("--format", "csv", "--plan", "auto", path)
            trials = [int(FOOTER.search(text)[2].replace(",", "")) for text in (told, best)]
            asked += 1
            wrong += by_file != by_best or trials[1] > trials[0]
    check("questions by the plan picked", asked > 200 and wrong == 0, f"{asked} questions, {wrong} wrong")


def run():
    paths = sorted((TESTS / "questions").glob("*.abe"))
    for path in paths:
        question(path)
    picked(paths)
