"""Jobs at each limit of the paper and one past it: (what, job, the number meant)."""

import format as fmt

LARGEST = 1_000_000
FURTHEST = 10**15


def var(number):
    return fmt.VARIABLE, number


def fixed(number):
    return fmt.FIXED, number


def const(value):
    return fmt.CONSTANT, value


EMPTY = (fmt.EMPTY, 0)
PANS = [(1, [[1], [2], [3], [2]])]
SAMPLES = (3, [[11, 1, 910], [12, 1, 913], [13, 2, 905], [14, 2, 905]])
J_TABLES = PANS + [SAMPLES]


def block(parent=fmt.NO_PARENT, rows=None, conditions=(), output=None):
    """A block; by itself it gives variable 0 of table 0's first column."""
    return fmt.BlockText(parent, [(0, [var(0)])] if rows is None else rows, list(conditions),
                         [var(0)] if output is None else output)


def job(tables=None, blocks=None, paths=None, **rest):
    blocks = blocks if blocks is not None else [block()]
    plan = fmt.plan_bytes(paths or [(0, 0)] * len(blocks))
    return fmt.Job(fmt.data_words(tables or PANS), fmt.question_bytes(blocks), plan, **rest)


def with_data(words):
    return fmt.Job(words, fmt.question_bytes([block()]), fmt.plan_bytes([(0, 0)]))


def j_blocks():
    return [block(output=[var(0), fmt.aggregate(4, 1, 1)]),
            block(0, [(1, [var(1), fixed(0), var(2)])], output=[var(1), var(2)])]


def data_limits():
    yield "one table", job([(1, [[5]])]), 0
    yield "eight tables", job([(1, [[5]])] * 8), 0
    yield "nine tables", job([(1, [[5]])] * 9), 3
    yield "no table", with_data([0]), 3
    yield "no word", with_data([]), 3
    yield "minus one table", with_data([-1]), 3
    yield "directory cut", with_data([2, 1, 0]), 3
    yield "eight columns", job([(8, [[0] * 8])], [block(rows=[(0, [var(0)] + [EMPTY] * 7)])]), 0
    yield "nine columns", job([(9, [[0] * 9])], [block(rows=[(0, [var(0)] + [EMPTY] * 8)])]), 3
    yield "no column", with_data([1, 0, 0]), 3
    yield "no row", job([(1, [])]), 0
    yield "256 rows", job([(1, [[row] for row in range(256)])]), 0
    yield "257 rows", job([(1, [[row] for row in range(257)])]), 3
    yield "minus one row", with_data([1, 1, -1]), 3
    yield "a count of 2,000,000", with_data([2_000_000, 1, 1, 5]), 3
    yield "a word missing", with_data([1, 1, 2, 5]), 3
    yield "a word after", with_data([1, 1, 1, 5, 5]), 3
    yield "a word after, out of range", with_data([1, 1, 1, 5, LARGEST + 1]), 3
    for value, number in [(LARGEST, 0), (-LARGEST, 0), (LARGEST + 1, 4), (-LARGEST - 1, 4), (-2**31, 4)]:
        yield f"value {value}", job([(1, [[0], [value]])]), number


def long_data_limits():
    """Data near 16,384 words: eight tables of eight columns can have 16,377 words or 16,385."""
    def eight(last):
        return [(8, [[row] * 8 for row in range(256)])] * 7 + [(8, [[row] * 8 for row in range(last)])]
    blocks = [block(rows=[(7, [var(0)] + [EMPTY] * 7)])]
    yield "16,377 words", job(eight(253), blocks), 0
    yield "16,385 words", job(eight(254), blocks), 3


def count_limits():
    def leaf(parent, variable):
        return block(parent, [(0, [var(variable)])], output=[var(variable)])
    condition = (0, const(1), const(1))
    yield "no byte", fmt.Job(fmt.data_words(PANS), b"", b""), 5
    yield "EN alone", fmt.Job(fmt.data_words(PANS), b"EN", b""), 6
    yield "EN twice", fmt.Job(fmt.data_words(PANS), b"ENEN", b""), 5
    yield "five blocks", job(blocks=[leaf(fmt.NO_PARENT if v == 0 else 0, v) for v in range(5)]), 0
    yield "six blocks", job(blocks=[leaf(fmt.NO_PARENT if v == 0 else 0, v) for v in range(6)]), 6
    yield "six blocks, the last malformed", patched(
        job(blocks=[leaf(fmt.NO_PARENT if v == 0 else 0, v) for v in range(6)]), lambda q: q[:-2]), 5
    yield "level four", job(blocks=[leaf([255, 0, 1, 2][v], v) for v in range(4)]), 0
    yield "level five", job(blocks=[leaf([255, 0, 1, 2, 3][v], v) for v in range(5)]), 7
    yield "three relation rows", job(blocks=[block(rows=[(0, [var(0)])] * 3)]), 0
    yield "four relation rows", job(blocks=[block(rows=[(0, [var(0)])] * 4)]), 6
    yield "four relation rows, one empty", job(blocks=[block(rows=[(0, [var(0)])] * 3 + [(0, [EMPTY])])]), 6
    yield "eight conditions", job(blocks=[block(conditions=[condition] * 8)]), 0
    yield "nine conditions", job(blocks=[block(conditions=[condition] * 9)]), 6
    for count, number in [(0, 6), (1, 0), (4, 0), (5, 6), (255, 6)]:
        yield f"{count} output columns", job(blocks=[block(output=[var(0)] * count)]), number
    yield from aggregate_limits()


def aggregate_limits():
    def naming(number, times, parent=0):
        top = block(output=[var(0)] + [fmt.aggregate(0, number)] * (times - 2),
                    conditions=[(3, fmt.aggregate(0, number), fmt.aggregate(0, number))])
        return job(blocks=[top, block(parent, [(0, [var(1)])], output=[var(1)])])
    yield "three aggregates of one block", naming(1, 3), 0
    yield "four aggregates of one block", naming(1, 4), 6
    yield "three aggregates of an absent block", naming(77, 3), 7
    yield "four aggregates of an absent block", naming(77, 4), 6
    yield "an aggregate of its own block", naming(0, 2), 7


def number_limits():
    for number, refused in [(15, 0), (16, 7), (-1, 7), (256, 7), (2**63 - 1, 7), (-2**63, 7)]:
        yield f"variable {number}", job(blocks=[block(rows=[(0, [var(number)])], output=[var(number)])]), refused
        child = block(0, [(0, [fixed(number)]), (0, [var(1)])], output=[var(1)])
        top = block(rows=[(0, [var(15)])], output=[fmt.aggregate(0, 1)])
        yield f"fixed variable {number}", job(blocks=[top, child]), refused
    for value, number in [(FURTHEST, 0), (-FURTHEST, 0), (FURTHEST + 1, 10), (-FURTHEST - 1, 10), (-2**63, 10)]:
        yield f"constant {value} in CD", job(blocks=[block(conditions=[(1, var(0), const(value))])]), number
        yield f"constant {value} in RW", job(blocks=[block(rows=[(0, [var(0)]), (0, [const(value)])])]), number


def kind_limits():
    """Every kind in every record; what is well formed goes on to its own number."""
    numbers = {"RW": {0: 0, 1: 0, 2: 0, 3: 8}, "CD": {1: 0, 2: 0, 3: 8, 4: 7}, "OL": {2: 0, 4: 7}}
    for kind in [0, 1, 2, 3, 4, 5, 16, 255]:
        element = (kind, 1 << 8 if kind == fmt.AGGREGATE else 0)
        for record, standing in [("RW", block(rows=[(0, [var(0)]), (0, [element])])),
                                 ("CD", block(conditions=[(0, const(0), element)])),
                                 ("OL", block(output=[var(0), element]))]:
            yield f"kind {kind} in {record}", job(blocks=[standing]), numbers[record].get(kind, 5)


def record_limits():
    """Codes, bytes that must be 0, and the order of records."""
    for operator, number in [(5, 0), (6, 5), (255, 5)]:
        yield f"operator {operator}", job(blocks=[block(conditions=[(operator, var(0), const(0))])]), number
    for what, argument, number in [("function 4", 4 | 1 << 8, 0), ("function 5", 5 | 1 << 8, 5),
                                   ("byte 3", 1 | 1 << 8 | 1 << 24, 5), ("byte 7", 1 | 1 << 8 | 1 << 56, 5)]:
        blocks = j_blocks()
        blocks[0].output = [(fmt.AGGREGATE, argument)]
        yield f"aggregate, {what}", job(J_TABLES, blocks), number
    for argument in (1, 1 << 63):
        yield f"empty, {argument}", job(blocks=[block(rows=[(0, [var(0)]), (0, [(fmt.EMPTY, argument)])])]), 5
    opening, row = b"BK\xff", fmt.relation_row_bytes(0, [var(0)])
    condition, output = fmt.condition_bytes(0, var(0), const(1)), b"OL\1" + fmt.element_bytes(var(0))
    for what, records, number in [
            ("in order", [opening, row, condition, output, b"EN"], 0), ("no OL", [opening, row, b"EN"], 5),
            ("CD before RW", [opening, condition, row, output, b"EN"], 5), ("no BK", [row, output, b"EN"], 5),
            ("OL before CD", [opening, row, output, condition, b"EN"], 5), ("no EN", [opening, row, output], 5),
            ("RW among CD", [opening, row, condition, row, condition, output, b"EN"], 5),
            ("OL twice", [opening, row, output, output, b"EN"], 5), ("EN first", [b"EN", opening, row, output], 5),
            ("a byte after", [opening, row, output, b"EN\0"], 5), ("half a mark", [opening, row, output, b"E"], 5),
            ("small letters", [opening, row, b"ol" + output[2:], b"EN"], 5)]:
        yield f"records, {what}", fmt.Job(fmt.data_words(PANS), b"".join(records), fmt.plan_bytes([(0, 0)])), number


def variable_limits():
    """Where variables and fixed variables may stand (8), and which columns may be summed (9)."""
    def family(*last, output=None):
        """Blocks 0 > 1 > 2 and 0 > 3, each with the variable of its number; the last with more records."""
        blocks = [block(parent, [(0, [var(own)])], output=[var(own)])
                  for own, parent in enumerate([fmt.NO_PARENT, 0, 1, 0])]
        blocks[2].conditions += last
        blocks[2].output = output or blocks[2].output
        return job(blocks=blocks)
    for what, element, number in [
            ("own", var(2), 0), ("of the parent", var(1), 8), ("of no block", var(9), 8), ("of an uncle", var(3), 8),
            ("fixed, own", fixed(2), 8), ("fixed, of the parent", fixed(1), 0),
            ("fixed, of the grandparent", fixed(0), 0), ("fixed, of an uncle", fixed(3), 8),
            ("fixed, of no block", fixed(9), 8)]:
        yield f"variable {what}", family((0, element, const(1))), number
    yield "variable of no relation row put out", family(output=[var(9)]), 8
    siblings = [block(), *(block(0, [(0, [var(own)])], output=[var(own)]) for own in (1, 1))]
    yield "variable in two siblings", job(blocks=siblings), 8
    yield "variable in parent and child", job(blocks=[block(), block(0)]), 8
    for function, refused in [(0, 0), (1, 9), (2, 0), (3, 0), (4, 9)]:
        for middle, number in [(1, 0), (3, 0), (4, refused)]:
            blocks = [block(rows=[], output=[fmt.aggregate(function, 1)]),
                      block(0, [], output=[fmt.aggregate(middle, 2)]), block(1)]
            yield f"{fmt.FUNCTIONS[function]} of {fmt.FUNCTIONS[middle]}", job(blocks=blocks), number


def reference_limits():
    """Tables, entries, parents, columns: the last that is there and the first that is not."""
    for table, number in [(1, 0), (2, 7), (255, 7)]:
        yield f"empty row of table {table}", job(
            J_TABLES, [block(rows=[(0, [var(0)]), (table, [EMPTY] * 3)])]), number
    for entries, number in [([], 7), ([EMPTY] * 2, 7)]:
        yield f"{len(entries)} entries for one column", job(
            blocks=[block(rows=[(0, [var(0)]), (0, entries)])]), number
    yield "entries missing", patched(job(), lambda q: q.replace(b"RW\0\1", b"RW\0\2")), 5
    for parent, number in [(0, 0), (1, 7), (2, 7), (255, 7)]:
        child = block(parent, [(0, [var(1)])], output=[var(1)])
        yield f"parent {parent} of block 1", job(blocks=[block(), child]), number
    yield "parent 0 of block 0", job(blocks=[block(0)]), 7
    for column, number in [(1, 0), (2, 7), (255, 7)]:
        blocks = j_blocks()
        blocks[0].output = [fmt.aggregate(1, 1, column)]
        yield f"sum of column {column} of two", job(J_TABLES, blocks), number
    blocks = j_blocks()
    blocks[0].output = [(fmt.AGGREGATE, 1 << 8 | 1 << 16)]
    yield "count with column 1", job(J_TABLES, blocks), 5


def plan_limits():
    for paths, number in [
            ([(0, 0), (1, 1)], 0), ([(0, 0), (2, 1)], 0), ([(0, 0), (1, 0)], 11), ([(0, 0), (2, 0)], 11),
            ([(0, 0), (1, 3)], 11), ([(0, 0), (3, 1)], 11), ([(0, 1), (0, 0)], 11), ([(1, 0), (0, 0)], 11),
            ([(2, 0), (0, 0)], 11), ([(0, 0)], 11), ([(0, 0)] * 3, 11)]:
        yield f"plan {paths}", job(J_TABLES, j_blocks(), paths), number


def set_limits():
    """Sets of 256 and 257 rows, of block 0 and of a child; the result full; the largest numerators."""
    def pairs(more):
        left = [[1, value] for value in range(16)] + [[2, 0]] * more
        return [(2, left), (2, [[1, value] for value in range(16)] + [[2, 99]])]
    cross = [(0, [var(0), var(1)]), (1, [var(0), var(2)])]
    for more, number in [(0, 0), (1, 13)]:
        top = block(rows=cross, output=[var(1), var(2), var(1), var(2)])
        yield f"{256 + more} rows", job(pairs(more), [top]), number
        child = block(0, cross, output=[var(1), var(2)])
        yield f"{256 + more} rows in a child", job(
            pairs(more), [block(rows=[], output=[fmt.aggregate(0, 1)]), child]), number
    yield "the largest numerator", largest_numerator(), 0
    yield "the largest numerator of either sign", largest_numerators(), 0


def largest_numerator():
    """256 × 256 × 256 × 1,000,000, in 768 trials by merging."""
    table = (3, [[row, 1, LARGEST] for row in range(256)])
    def each(parent, own, k, output):
        return block(parent, [(0, [var(own), k, EMPTY])], output=[var(own), output])
    blocks = [block(rows=[], output=[fmt.aggregate(1, 1, 1)]),
              each(0, 0, var(1), fmt.aggregate(1, 2, 1)),
              each(1, 2, fixed(1), fmt.aggregate(1, 3, 1)),
              block(2, [(0, [var(3), fixed(1), var(4)])], output=[var(3), var(4)])]
    return job([table], blocks, [(0, 0), (0, 0), (2, 1), (2, 1)])


def largest_numerators():
    """256 × 256 × 256 × 1,000,000 and the same below zero, the greater met first, in 1,544 trials by merging."""
    tables = [(2, [[1, LARGEST], [2, -LARGEST]]), (1, [[row] for row in range(256)])]
    def each(parent, own, value, output):
        return block(parent, [(0, [fixed(0), value]), (1, [var(own)])], output=[var(own), output])
    blocks = [block(rows=[(0, [var(0), EMPTY])], output=[fmt.aggregate(1, 1, 1), var(0)]),
              each(0, 1, EMPTY, fmt.aggregate(1, 2, 1)),
              each(1, 2, EMPTY, fmt.aggregate(1, 3, 1)),
              each(2, 3, var(4), var(4))]
    return job(tables, blocks, [(0, 0), (2, 0), (2, 0), (2, 0)])


def budget_limits():
    merged = [(0, 0), (2, 1)]
    for budget, number in [(8, 0), (7, 12), (1, 12), (0, 12), (2**64 - 1, 0)]:
        yield f"J, budget {budget}", job(J_TABLES, j_blocks(), merged, budget=budget), number
    empty = [block(rows=[(0, [EMPTY])], output=[fmt.aggregate(0, 1)]), block(0, [(1, [var(0)])])]
    yield "no trial, budget 0", job(PANS + [(1, [])], empty, budget=0), 0
    large = [block(rows=[(0, [var(0)]), (1, [var(1)])], output=[var(0), var(1)])]
    tables = [(1, [[value] for value in range(count)]) for count in (16, 17)]
    yield "too large within the budget", job(tables, large, budget=288), 13
    yield "too large and over the budget", job(tables, large, budget=287), 12


def buffer_limits():
    for place, name in enumerate(fmt.BUFFER_NAMES):
        for by in (-1, 1):
            lengths = list(fmt.BUFFER_WORDS)
            lengths[place] += by
            number = 0 if by == 1 else 2 if place == 0 else 1
            yield f"{name} by {by}", job(J_TABLES, j_blocks(), lengths=tuple(lengths)), number
    yield "nothing lent, no data", fmt.Job([], b"", b"", lengths=(0, 0, 0, 0)), 1
    yield "no result, no data", fmt.Job([], b"", b"", lengths=(0, *fmt.BUFFER_WORDS[1:])), 2


def patched(given, patch):
    given.question = patch(given.question)
    return given


def limit_jobs(long=True):
    """All of them; `long` with those of 65,508 and 65,540 bytes of data."""
    for some in [data_limits, count_limits, number_limits, kind_limits, record_limits, variable_limits,
                 reference_limits, plan_limits, set_limits, budget_limits, buffer_limits] + [long_data_limits] * long:
        yield from some()
