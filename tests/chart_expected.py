#!/usr/bin/env python3
"""The lines of crate chart_test, computed apart from it: for each operator whether it is met by two values of which the
first is less, equal or greater, or of which one is absent, or both. Python's operators tell, over many pairs that stand
so. An absent value (request No. 3) is None.

Prints the whole expected output; `python3 tests/chart_expected.py > crates/chart_test/stdout` stores it.
"""
import operator
from fractions import Fraction
from itertools import combinations
from usage import help_first

OPERATORS = {"=": operator.eq, "!=": operator.ne, "<": operator.lt, "<=": operator.le, ">": operator.gt,
             ">=": operator.ge}

ASCENDING = [-10**15, -905, Fraction(-5, 2), -2, Fraction(-1, 2), Fraction(-1, 3), 0, Fraction(1, 256),
             Fraction(1, 255), 1, Fraction(3, 2), 2, 905, Fraction(1811, 2), 10**15]
WRITTEN_TWICE = [(0, Fraction(0, 7)), (2, Fraction(4, 2)), (Fraction(-6, 2), -3)]

LESS = list(combinations(ASCENDING, 2))
PAIRS = {"less": LESS,
         "equal": [(value, value) for value in ASCENDING] + WRITTEN_TWICE,
         "greater": [(y, x) for x, y in LESS],
         "absent": [pair for value in ASCENDING for pair in [(None, value), (value, None)]] + [(None, None)]}


def meets(test, left, right):
    """Request No. 3: "An absent value meets no comparison, ≠ included." Else python's operator tells."""
    return left is not None and right is not None and test(left, right)


def answer(name, relation):
    """That of all pairs that stand so."""
    answers = {meets(OPERATORS[name], *pair) for pair in PAIRS[relation]}
    if len(answers) != 1:
        raise ValueError(f"{name} answers {relation} in two ways")
    return "yes" if answers.pop() else "no"


if __name__ == "__main__":
    help_first(__doc__)
    for name in OPERATORS:
        for relation in PAIRS:
            print(name, relation, answer(name, relation))
