"""Jobs at random from a seed: accepted questions with all admitted plans, values that come again, projections of tables
and blocks over them, relation rows joined by conditions, children that are often empty, crowded sets, limits, damaged
jobs.

Command line: `generate.py jobs SEED COUNT > stream`, `generate.py joined SEED COUNT > stream` for joins alone,
`generate.py absent SEED COUNT > stream` for absent values, `generate.py indexes SEED COUNT > index stream`; the answers
are `evaluator.py answers < stream` and `evaluator.py indexes < index stream`. `generate.py limits > stream` has the
limit jobs alone, those over 4,000 words too.
"""

import sys
from dataclasses import dataclass, field

import damage
import format as fmt
import limits
from draw import Draw
from naive.matching import Matching
from naive.plan import Path, admitted_paths
from naive.question import read_question
from naive.tables import tables_of
from naive.trials import Spent, Trials
from usage import help_first

MOST_TRIALS = 4_000         # of a generated question by file
DEEPEST_LEVEL = 4
SMALL = [-1, 0, 0, 1, 1, 1, 2, 2, 3]
SHARING = [0, 0, 256, -1, 1, 1, 1, 257, 257, -2]    # values that share a mark: 0, 256 and -1; 1, 257 and -2
TOP_ROWS = [0, 1, 1, 1, 2, 2, 2, 3], [1, 2, 2, 2, 3]            # how many relation rows: block 0 with children, without
BELOW_ROWS = [0, 1, 1, 1, 1, 2, 3], [1, 1, 1, 1, 2, 2, 3]       # .. every other block
FAR = [1_000_000, -1_000_000, 1_000_001, -1_000_001, 10**15, -10**15,       # the values' ends, past them, and what has
       2**32, 2**32 + 1, 2 - 2**32]                                         # .. the last 32 bits of a small value
JOINED_SEED, JOINED = 4754, 300         # the joins that are stored, and run by crate cases
ABSENT_SEED, ABSENT = 4703, 300         # .. the questions over children that are often empty


@dataclass
class Draft:
    """A job before it is written, so that it can be damaged part by part."""
    tables: list
    blocks: list
    paths: list = field(default_factory=list)
    budget: int = fmt.LISTING_BUDGET
    lengths: tuple = tuple(fmt.BUFFER_WORDS)
    data_patches: list = field(default_factory=list)        # functions on the words or bytes written
    question_patches: list = field(default_factory=list)
    plan_patches: list = field(default_factory=list)

    def job(self):
        data, question = fmt.data_words(self.tables), fmt.question_bytes(self.blocks)
        plan = fmt.plan_bytes(self.paths)
        for patch in self.data_patches:
            data = patch(data)
        for patch in self.question_patches:
            question = patch(question)
        for patch in self.plan_patches:
            plan = patch(plan)
        return fmt.Job(data, question, plan, self.budget, self.lengths)

    def matching(self):
        return Matching(read_question(fmt.question_bytes(self.blocks)), tables_of(fmt.data_words(self.tables)))

    def admitted(self):
        """The admitted paths of each block."""
        blocks = read_question(fmt.question_bytes(self.blocks))
        return [[tuple(path) for path in admitted_paths(blocks, number)] for number in range(len(blocks))]


def random_tables(draw):
    """One to four tables of few values, so that rows meet, small or 256 apart; some repeated rows, some values at the
    ends."""
    tables, few = [], draw.one_of([SMALL, SMALL, SHARING])
    for _ in range(draw.between(1, 4)):
        columns, rows = draw.between(1, 4), []
        for _ in range(draw.one_of([0, 2, 3, 4, 4, 5, 6, 7, 8])):
            if rows and draw.chance(20):
                rows.append(list(draw.one_of(rows)))
            else:
                rows.append([random_value(draw, few) for _ in range(columns)])
        if draw.chance(50):
            repeat_column(draw, columns, rows)
        tables.append((columns, rows))
    return tables


def joined_tables(draw):
    """Two or three tables of few values."""
    tables, few = [], draw.one_of([SMALL, SMALL, SHARING])
    for _ in range(draw.between(2, 3)):
        columns, rows = draw.between(1, 3), 0 if draw.chance(3) else draw.between(2, 7)
        tables.append((columns, [[random_value(draw, few) for _ in range(columns)] for _ in range(rows)]))
    return tables


def sparse_tables(draw):
    """Two to four tables, in which a value of one is often in no row of another; some without rows."""
    tables = []
    for _ in range(draw.between(2, 4)):
        columns, rows = draw.between(2, 3), 0 if draw.chance(8) else draw.between(3, 7)
        tables.append((columns, [[draw.between(-1, 4) for _ in range(columns)] for _ in range(rows)]))
    return tables


def repeat_column(draw, columns, rows):
    """Has one column take one value or two in most rows."""
    column = draw.below(columns)
    values = [draw.one_of(rows)[column] for _ in range(2) if rows]
    for row in rows:
        if draw.chance(80):
            row[column] = draw.one_of(values)


def random_value(draw, few=SMALL):
    """One of few values, or now and then one far from them."""
    if draw.chance(4):
        return draw.one_of([-1_000_000, 1_000_000, 999_999, -7, 905])
    return draw.one_of(few)


class QuestionMaker:
    """One question free of causes 5 to 10, over given tables."""

    functions = [0, 1, 2, 3, 4, 4], [0, 2, 3]       # of a whole column, of a ratio column

    def __init__(self, draw, tables):
        self.draw = draw
        self.tables = tables
        self.free = draw.shuffled(range(16))
        self.levels = [1]
        self.blocks = [fmt.BlockText(fmt.NO_PARENT)]
        self.variables = []             # of each block, those in its relation rows
        self.ratio = {}                 # of each block, whether each output column is a ratio
        self.left = {}                  # aggregates that may still name each block

    def make(self):
        for _ in range(self.draw.one_of([0, 1, 1, 2, 2, 3, 3, 4])):
            parents = [number for number, level in enumerate(self.levels) if level < DEEPEST_LEVEL]
            parent = parents[-1] if self.draw.chance(50) else self.draw.one_of(parents)
            self.blocks.append(fmt.BlockText(parent))
            self.levels.append(self.levels[parent] + 1)
        return self.fill()

    def fill(self):
        """The blocks filled with records."""
        for number in range(len(self.blocks)):
            self.relation_rows(number)
        for number in reversed(range(len(self.blocks))):
            self.left[number] = 3
            self.output(number)
            self.conditions(number)
        return self.blocks

    def children(self, number):
        return [child for child, block in enumerate(self.blocks) if child > 0 and block.parent == number]

    def above(self, number):
        """Variables of proper ancestors, the parent's first."""
        found = []
        while number != 0:
            number = self.blocks[number].parent
            found += self.variables[number]
        return found

    def relation_rows(self, number):
        self.variables.append([])
        block, leaf = self.blocks[number], not self.children(number)
        for _ in range(self.row_count(number, leaf)):
            table = self.draw.below(len(self.tables))
            empty = self.draw.chance(8)
            block.relation_rows.append((table, [
                (fmt.EMPTY, 0) if empty else self.entry(number) for _ in range(self.tables[table][0])]))
        if leaf and not self.variables[number]:
            entries = block.relation_rows[-1][1]
            entries[self.draw.below(len(entries))] = self.new_variable(number)

    def row_count(self, number, leaf):
        return self.draw.one_of(TOP_ROWS[leaf] if number == 0 else BELOW_ROWS[leaf])

    def entry(self, number):
        above = self.above(number)
        choice = self.draw.below(100)
        if choice < 18:
            return fmt.EMPTY, 0
        if choice < 25:
            return fmt.CONSTANT, random_value(self.draw)
        if above and choice < 55:
            return fmt.FIXED, above[0] if self.draw.chance(60) else self.draw.one_of(above)
        own = self.variables[number]
        if len(own) >= 3 or (own and self.draw.chance(25)):
            return fmt.VARIABLE, self.draw.one_of(own)
        return self.new_variable(number)

    def new_variable(self, number):
        self.variables[number].append(self.free.pop())
        return fmt.VARIABLE, self.variables[number][-1]

    def aggregate(self, number):
        """An aggregate of a child that may still be named, or None."""
        children = [child for child in self.children(number) if self.left[child] > 0]
        if not children:
            return None
        child = self.draw.one_of(children)
        self.left[child] -= 1
        column = self.draw.below(len(self.ratio[child]))
        function = self.draw.one_of(self.functions[self.ratio[child][column]])
        return fmt.aggregate(function, child, 0 if function == 0 else column)

    def is_ratio(self, element):
        kind, argument = element
        function, child, column = argument & 255, argument >> 8 & 255, argument >> 16
        return kind == fmt.AGGREGATE and (function == 4 or (function in (2, 3) and self.ratio[child][column]))

    def output(self, number):
        output, own = self.blocks[number].output, self.variables[number]
        for _ in range(self.draw.between(1, 3)):
            element = self.aggregate(number) if not own or self.draw.chance(60) else None
            if element is None and own:
                element = fmt.VARIABLE, self.draw.one_of(own)
            if element is not None:
                output.append(element)
        self.ratio[number] = [self.is_ratio(element) for element in output]

    def conditions(self, number):
        for _ in range(self.draw.one_of([0, 0, 0, 0, 1, 1, 2])):
            left = self.aggregate(number) if self.draw.chance(55) else None
            right = self.aggregate(number) if self.draw.chance(10) else None
            self.blocks[number].conditions.append(
                (self.draw.below(6), left or self.plain(number), right or self.plain(number)))

    def plain(self, number):
        own, above = self.variables[number], self.above(number)
        if own and self.draw.chance(55):
            return fmt.VARIABLE, self.draw.one_of(own)
        if above and self.draw.chance(40):
            return fmt.FIXED, self.draw.one_of(above)
        return fmt.CONSTANT, 10**15 if self.draw.chance(3) else random_value(self.draw)


class JoinMaker(QuestionMaker):
    """A question of one to three blocks, each below the one before, whose relation rows are joined by conditions: most
    entries are variables that stand in one place."""

    def make(self):
        for parent in range(self.draw.one_of([0, 0, 0, 1, 1, 2])):
            self.blocks.append(fmt.BlockText(parent))
            self.levels.append(parent + 2)
        return self.fill()

    def row_count(self, number, leaf):
        return self.draw.one_of([1, 2, 2, 3, 3, 3] if number == 0 else [1, 1, 2, 2, 3])

    def entry(self, number):
        own, above, choice = self.variables[number], self.above(number), self.draw.below(100)
        if choice < 10:
            return fmt.EMPTY, 0
        if choice < 15:
            return fmt.CONSTANT, random_value(self.draw)
        if above and choice < 35:
            return fmt.FIXED, self.draw.one_of(above)
        if own and (len(own) >= 5 or choice >= 88):
            return fmt.VARIABLE, self.draw.one_of(own)
        return self.new_variable(number)

    def conditions(self, number):
        """Mostly equalities, either way round, and some with an aggregate."""
        several = len(self.blocks[number].relation_rows) > 1
        for _ in range(self.draw.one_of([1, 1, 2, 2, 2, 3, 4] if several else [0, 0, 1])):
            sides, named = self.sides(number), self.aggregate(number) if self.draw.chance(30) else None
            operator = 0 if self.draw.chance(60) else self.draw.below(6)
            self.blocks[number].conditions.append((operator, *self.draw.shuffled([named or sides[0], sides[1]])))

    def sides(self, number):
        """A variable, and mostly one of another relation row, else any, a fixed variable or a constant."""
        rows = [[entry for entry in entries if entry[0] == fmt.VARIABLE]
                for _, entries in self.blocks[number].relation_rows]
        rows = self.draw.shuffled(row for row in rows if row)
        if len(rows) > 1 and self.draw.chance(70):
            return [self.draw.one_of(row) for row in rows[:2]]
        return [self.draw.one_of(rows[0]) if rows else self.plain(number), self.plain(number)]

    def plain(self, number):
        if self.draw.chance(8):
            return fmt.CONSTANT, self.draw.one_of(FAR)
        return super().plain(number)


class SparseMaker(QuestionMaker):
    """A question of two to five blocks, each mostly below the one before, whose aggregates are mostly min, max and ave,
    put out and compared: of children that are often empty, and of columns in which values are absent."""

    functions = [0, 1, 1, 2, 2, 3, 3, 4, 4, 4], [0, 2, 2, 3, 3]

    def make(self):
        for _ in range(self.draw.one_of([1, 2, 2, 2, 3, 3, 4])):
            parents = [number for number, level in enumerate(self.levels) if level < DEEPEST_LEVEL]
            parent = parents[-1] if self.draw.chance(80) else self.draw.one_of(parents)
            self.blocks.append(fmt.BlockText(parent))
            self.levels.append(self.levels[parent] + 1)
        return self.fill()

    def relation_rows(self, number):
        """Each with a new variable and, of a leaf block mostly, one of an ancestor; block 0 now and then has none."""
        self.variables.append([])
        above, leaf = self.above(number), not self.children(number)
        for _ in range(self.draw.one_of([1, 1, 1, 2] if number else [0, 1, 1, 1, 1])):
            table, entries = self.draw.below(len(self.tables)), [self.new_variable(number)]
            if above and self.draw.chance(85 if leaf else 40):
                entries.append((fmt.FIXED, above[0] if self.draw.chance(80) else self.draw.one_of(above)))
            while len(entries) < self.tables[table][0]:
                another = self.draw.chance(40) and len(self.free) > 8
                entries.append(self.new_variable(number) if another else (fmt.EMPTY, 0))
            self.blocks[number].relation_rows.append((table, self.draw.shuffled(entries)))

    def output(self, number):
        """A variable now and then, and aggregates."""
        output, own = self.blocks[number].output, self.variables[number]
        output += [(fmt.VARIABLE, self.draw.one_of(own))] if own and self.draw.chance(50) else []
        output += [self.aggregate(number) for _ in range(self.draw.between(1, 2)) if self.children(number)]
        output += [(fmt.VARIABLE, self.draw.one_of(own))] if not output else []
        self.ratio[number] = [self.is_ratio(element) for element in output]

    def conditions(self, number):
        """Of an aggregate mostly, with a plain element or with another aggregate."""
        for _ in range(self.draw.one_of([0, 0, 0, 1, 1])):
            left, right = self.aggregate(number), self.aggregate(number) if self.draw.chance(40) else None
            self.blocks[number].conditions.append(
                (self.draw.below(6), *self.draw.shuffled([left or self.plain(number), right or self.plain(number)])))


def random_draft(draw):
    """A question accepted as far as 11, with an admitted plan and at most MOST_TRIALS by file; mostly of some rows."""
    if draw.chance(20):
        return followed_draft(draw)
    if draw.chance(12):
        return stacked_draft(draw)
    return made_draft(draw, random_tables, QuestionMaker)


def made_draft(draw, make_tables, maker):
    """Such a question by this maker, over tables made so."""
    while True:
        tables = make_tables(draw)
        draft = Draft(tables, maker(draw, tables).make())
        try:
            Trials(draft.matching(), [Path(0, 0)] * len(draft.blocks), MOST_TRIALS).count()
        except Spent:
            continue
        if len(draft.matching().set_of(0, {})) < 2 and draw.chance(70):
            continue
        draft.paths = [draw.one_of(paths[-3:]) for paths in draft.admitted()]
        return draft


def followed_draft(draw):
    """Runs of few tanks and days, so that both come again; each is used in up to two further places."""
    tanks = draw.one_of([[1, 2], [1, 2, 3], [0, 256, -1]])
    tables = [(2, [[draw.one_of(tanks), draw.between(1, 2)] for _ in range(draw.between(3, 7))])]
    for low in (5, 50):             # pans, and samples of them
        tables.append((4, [[low + row, draw.one_of(tanks), draw.between(1, 2), draw.between(5, 7)]
                           for row in range(draw.between(2, 4))]))
    empty, of_pan = (fmt.EMPTY, 0), (fmt.FIXED, 2) if draw.chance(60) else (fmt.EMPTY, 0)
    top = fmt.BlockText(fmt.NO_PARENT, [(0, [(fmt.VARIABLE, 0), (fmt.VARIABLE, 1)])], [], [(fmt.VARIABLE, 2)])
    for pan in range(2, draw.between(3, 4)):
        top.relation_rows.append((1, [(fmt.VARIABLE, pan), empty, empty, empty]))
    each = fmt.BlockText(0, [(2, [(fmt.VARIABLE, 4), empty, empty, of_pan])], [], [(fmt.VARIABLE, 4)])
    if draw.chance(60):
        top.output.append(fmt.aggregate(draw.below(2), 1))
    for variable in range(2):       # the tank, the day
        for use in draw.shuffled(range(7))[:draw.below(3)]:
            use_again(draw, top, each, variable, use)
    draft = Draft(tables, [top, each])
    draft.paths = [draw.one_of(paths) for paths in draft.admitted()]
    return draft


def use_again(draw, top, each, variable, use):
    """Uses a variable of the first relation row in one place more: a later relation row, the child's, the output list,
    a condition, one with an aggregate, one of the child."""
    own, fixed = (fmt.VARIABLE, variable), (fmt.FIXED, variable)
    operator, constant = draw.below(6), (fmt.CONSTANT, draw.below(3))
    if use < 3:
        row, element = [(top.relation_rows[1], own), (top.relation_rows[-1], own), (each.relation_rows[0], fixed)][use]
        row[1][variable + 1] = element
    elif use == 3:
        top.output.append(own)
    elif use == 4:
        top.conditions.append((operator, *draw.shuffled([own, constant])))
    elif use == 5:
        top.conditions.append((operator, *draw.shuffled([own, fmt.aggregate(0, 1)])))
    else:
        each.conditions.append((operator, *draw.shuffled([fixed, constant])))


def stacked_draft(draw):
    """Three levels, tanks, their pans, and samples and weights of a pan: the rows of most leaf blocks are a
    projection of their table, and pans and tanks come again."""
    tanks, keys = draw.one_of([[1, 2], [0, 1, 2]]), draw.one_of([[1, 2], [1, 2, 3], [0, 256, -1], [1, 257, -2, 64]])
    tables = [(1, [[draw.one_of(tanks)] for _ in range(draw.between(2, 4))]),
              (3, [[draw.one_of(keys), draw.one_of(tanks), draw.one_of(keys)] for _ in range(draw.between(3, 7))])]
    for columns, low in (3, 10), (2, 70):       # samples, weights
        tables.append((columns, [[draw.one_of(keys), *(low + draw.below(4) for _ in range(columns - 1))]
                                 for _ in range(draw.between(2, 6))]))
    places = [draw.shuffled(range(columns)) for columns, _ in tables]
    tables = [(columns, [[row[old] for old in place] for row in rows]) for (columns, rows), place in zip(tables, places)]

    def row(table, entries):
        return table, [entries[old] for old in places[table]]

    var, fixed, empty = (lambda n: (fmt.VARIABLE, n)), (lambda n: (fmt.FIXED, n)), (fmt.EMPTY, 0)
    odd = draw.below(16)                        # 0 to 5: something that is no projection
    shelf = var(1) if odd == 0 else var(2)      # the pan twice in its row
    middle = fmt.BlockText(0, [row(1, [var(1), fixed(0), shelf])])
    samples = fmt.BlockText(1, [row(2, [fixed(0) if odd == 1 else fixed(1), var(3),
                                        (fmt.CONSTANT, 11) if odd == 2 else draw.one_of([var(4), var(4), empty])])])
    samples.output = draw.shuffled([element for _, entries in samples.relation_rows for element in entries
                                    if element[0] == fmt.VARIABLE])
    weights = fmt.BlockText(1, [row(3, [fixed(draw.between(1, 2)) if odd else fixed(1), var(5)])], [], [var(5)])
    if odd == 3:
        samples.conditions.append((draw.below(6), var(3), (fmt.CONSTANT, 11)))
    children = draw.one_of([[samples], [samples], [samples, weights]])
    middle.output = [draw.one_of([var(1), shelf]) for _ in range(draw.below(3))]
    for number, child in enumerate(children, 2):
        for _ in range(1 if len(children) == 2 else draw.between(1, 2)):
            column = draw.below(len(child.output))
            function = draw.below(5)
            middle.output.append(fmt.aggregate(function, number, column if function else 0))
    middle.output = draw.shuffled(middle.output)
    if odd in (4, 5):
        left = var(1) if odd == 4 else fmt.aggregate(0, 2)
        middle.conditions.append((draw.below(6), left, (fmt.CONSTANT, draw.between(1, 2))))
    top = fmt.BlockText(fmt.NO_PARENT, [(0, [var(0)])], [], [var(0)])
    for _ in range(draw.between(1, 3)):
        column = draw.below(len(middle.output))
        kind, argument = middle.output[column]
        function = draw.one_of([2, 3] if kind == fmt.AGGREGATE and argument & 255 == 4 else [0, 1, 2, 3, 4])
        top.output.append(fmt.aggregate(function, 1, column if function else 0))
    draft = Draft(tables, [top, middle, *children])
    draft.paths = [draw.one_of(paths + [path for path in paths if path[0] == 1] * 6) for paths in draft.admitted()]
    return draft


def joined_draft(draw):
    """Relation rows joined by conditions, with an admitted plan, accepted as far as 11; some crowded."""
    return crowded_join(draw) if draw.chance(10) else made_draft(draw, joined_tables, JoinMaker)


def absent_draft(draw):
    """Children that are often empty, with an admitted plan, accepted as far as 11."""
    return made_draft(draw, sparse_tables, SparseMaker)


def crowded_join(draw):
    """Sets about 256 rows over runs most of which a condition refuses: of block 0, or of a child that perhaps no match
    wants."""
    var, constant = (lambda n: (fmt.VARIABLE, n)), (lambda: (fmt.CONSTANT, draw.below(3)))
    tables = [(2, [[draw.below(3), draw.below(3)] for _ in range(draw.between(2, 4))]),      # runs and tanks
              (2, [[pan, draw.between(14, 18)] for pan in range(draw.between(16, 18))]),     # pans and limits
              (1, [[shelf] for shelf in range(draw.between(16, 17))])]
    pairs = [(1, [var(2), var(3)]), (2, [var(4)])]
    large = fmt.BlockText(fmt.NO_PARENT, pairs, [(draw.one_of([2, 3]), var(4), var(3))], [var(2), var(4)])
    large.conditions += [(0, var(1), constant())] * draw.chance(80)
    if draw.chance(40):
        large.relation_rows = draw.shuffled([(0, [var(0), var(1)]), *pairs])
        blocks = [large]
    else:
        large.parent, large.relation_rows = 0, [(0, [(fmt.FIXED, 5), var(1)]), *pairs]
        blocks = [fmt.BlockText(fmt.NO_PARENT, [(0, [var(5), var(6)]), (0, [var(7), (fmt.EMPTY, 0)])],
                                [(draw.below(6), var(6), draw.one_of([var(7), constant()]))],
                                [var(5), fmt.aggregate(0, 1)]), large]
    draft = Draft(tables, blocks)
    draft.paths = [draw.one_of(paths) for paths in draft.admitted()]
    return draft


def trials_of(draft):
    return Trials(draft.matching(), [Path(*path) for path in draft.paths]).count()


def random_job(draw):
    """An accepted question, under a budget that mostly suffices and sometimes is met or missed by one."""
    draft, choice = random_draft(draw), draw.below(10)
    if choice < 4:
        trials = trials_of(draft)
        draft.budget = [trials, max(trials - 1, 0), draw.below(trials + 1), 2**64 - 1][choice]
    return draft.job()


def crowded_draft(draw):
    """Sets about 256 rows: of block 0, of a wanted child, of one at a removed match, of one that nobody wants."""
    many, side = draw.between(15, 18), draw.between(15, 17)
    pans = [[draw.one_of([1, 2, 9])] for _ in range(draw.between(1, 3))]
    samples = [[sample, 9] for sample in range(many)] + [[sample, 1] for sample in range(draw.below(3))]
    tables = [(1, pans), (2, samples), (1, [[value] for value in range(side)])]
    top = fmt.BlockText(fmt.NO_PARENT, [(0, [(fmt.VARIABLE, 0)])], [], [(fmt.VARIABLE, 0)])
    each = fmt.BlockText(0, [(1, [(fmt.VARIABLE, 1), (fmt.FIXED, 0)]), (2, [(fmt.VARIABLE, 2)])], [],
                         [(fmt.VARIABLE, 1), (fmt.VARIABLE, 2)])
    if draw.chance(30):
        top.conditions.append((1, (fmt.VARIABLE, 0), (fmt.CONSTANT, 9)))
    if draw.chance(50):
        top.conditions.append((2, fmt.aggregate(0, 1), (fmt.CONSTANT, 100)))
    if draw.chance(70):
        top.output.append(fmt.aggregate(draw.below(2), 1))
    if draw.chance(20):
        each.output = [(fmt.VARIABLE, 2)]
    if draw.chance(25):
        top.relation_rows += [(1, [(fmt.VARIABLE, 3), (fmt.EMPTY, 0)]), (2, [(fmt.VARIABLE, 4)])]
        top.output += [(fmt.VARIABLE, 3), (fmt.VARIABLE, 4)]
    draft = Draft(tables, [top, each])
    draft.paths = [draw.one_of(paths) for paths in draft.admitted()]
    return draft


def crowded_job(draw):
    draft = crowded_draft(draw)
    if draw.chance(25):
        trials = trials_of(draft)
        draft.budget = trials - draw.below(2) if trials else 0
    return draft.job()


def damaged_job(draw, faults):
    """An accepted question with this many faults, and the lowest number meant."""
    while True:
        draft = random_draft(draw)
        meant = damage.inflict(draw, draft, faults)
        if meant is not None:
            return draft.job(), meant


def random_jobs(seed, count):
    """`count` jobs: of twenty, eleven accepted as far as 11, one crowded, five damaged, three changed in a byte."""
    draw, jobs = Draw(seed), []
    for place in range(count):
        kind = place % 20
        if kind < 11:
            jobs.append(random_job(draw))
        elif kind == 11:
            jobs.append(crowded_job(draw))
        elif kind < 17:
            jobs.append(damaged_job(draw, [1, 1, 1, 2, 3][kind - 12])[0])
        else:
            jobs.append(damage.change_bytes(draw, random_draft(draw).job()))
    return jobs


def joined_jobs(seed, count):
    """`count` jobs of joined relation rows."""
    return planned_jobs(seed, count, joined_draft)


def absent_jobs(seed, count):
    """`count` jobs of children that are often empty."""
    return planned_jobs(seed, count, absent_draft)


def planned_jobs(seed, count, make):
    """`count` jobs, two of a question, each with a plan of its own and a budget: ample, or from 0 to a little past the
    count."""
    draw, jobs = Draw(seed), []
    while len(jobs) < count:
        draft = make(draw)
        for _ in range(2):
            draft.paths = [draw.one_of(paths) for paths in draft.admitted()]
            trials = trials_of(draft)
            draft.budget = draw.one_of([fmt.LISTING_BUDGET, fmt.LISTING_BUDGET, trials, max(trials - 1, 0), trials + 1,
                                        draw.below(2), *(draw.below(trials + 3) for _ in range(3))])
            jobs.append(draft.job())
    return jobs[:count]


def random_index_calls(seed, count):
    """`count` calls of the index: most given, some refused by 3, 4, 7 or 2."""
    draw, calls = Draw(seed), []
    for _ in range(count):
        tables = random_tables(draw)
        draft = Draft(tables, [])
        if draw.chance(25):
            damage.inflict_data(draw, draft)
        table = draw.below(len(tables) + 1) if draw.chance(30) else draw.below(len(tables))
        columns, rows = tables[min(table, len(tables) - 1)]
        column = draw.below(columns + 1) if draw.chance(30) else draw.below(columns)
        length = max(0, len(rows) + draw.one_of([-1, 0, 0, 1, 5]))
        calls.append((draft.job().data, table, column, length))
    return calls


def main(arguments):
    out = sys.stdout.buffer
    if len(arguments) == 3 and arguments[0] == "jobs":
        out.write(fmt.stream_bytes(random_jobs(int(arguments[1]), int(arguments[2]))))
    elif len(arguments) == 3 and arguments[0] == "joined":
        out.write(fmt.stream_bytes(joined_jobs(int(arguments[1]), int(arguments[2]))))
    elif len(arguments) == 3 and arguments[0] == "absent":
        out.write(fmt.stream_bytes(absent_jobs(int(arguments[1]), int(arguments[2]))))
    elif len(arguments) == 3 and arguments[0] == "indexes":
        out.write(fmt.index_stream_bytes(random_index_calls(int(arguments[1]), int(arguments[2]))))
    elif arguments == ["limits"]:
        out.write(fmt.stream_bytes([job for _, job, _ in limits.limit_jobs()]))
    else:
        sys.exit("usage: generate.py jobs|joined|absent|indexes SEED COUNT | generate.py limits")


if __name__ == "__main__":
    help_first(__doc__)
    main(sys.argv[1:])
