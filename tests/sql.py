"""Questions as SQL, for SQLite: a second opinion on the rows, the trials and too large.

A value is a pair of columns, numerator and denominator; an absent one is NULL in both, for which SQL has the rules of
request No. 3. A block's set is SELECT DISTINCT over its live relation rows, an aggregate a correlated subquery over the
child's set. Trials are counted by joins: every block has a table of its evaluations (context), one of the matches whose
plain conditions hold (passing), and each relation row adds the number of matches before it times the rows of its table.
"""

import math
import sqlite3

from naive.question import Aggregate, Constant, Empty, Fixed, Variable

OPERATORS = ["=", "<>", "<", "<=", ">", ">="]
LONGEST = 200_000       # characters of one statement worth running


class TooLong(Exception):
    """The statement would pass LONGEST characters."""


class Sql:
    """One question over its tables, in a database of its own."""

    def __init__(self, blocks, tables):
        self.blocks = blocks
        self.tables = tables
        self.aliases = 0
        self.base = sqlite3.connect(":memory:")
        self.base.create_function("gcd", 2, divisor, deterministic=True)
        for number, table in enumerate(tables):
            names = ", ".join(f"c{column} INTEGER" for column in range(table.columns))
            self.base.execute(f"CREATE TABLE t{number} ({names})")
            marks = ", ".join("?" * table.columns)
            self.base.executemany(f"INSERT INTO t{number} VALUES ({marks})", table.rows)

    def close(self):
        self.base.close()

    def ask(self, statement):
        if len(statement) > LONGEST:
            raise TooLong
        return self.base.execute(statement).fetchall()

    def live(self, number):
        return [row for row in self.blocks[number].relation_rows
                if not all(isinstance(entry, Empty) for entry in row.entries)]

    def named(self, number):
        block = self.blocks[number]
        pairs = [element for condition in block.conditions for element in (condition.left, condition.right)]
        return sorted({element.block for element in pairs + block.output if isinstance(element, Aggregate)})

    def join(self, rows, outer):
        """FROM items and WHERE terms of relation rows, and the expressions of all variables known then."""
        sources, terms, known = [], [], dict(outer)
        for row in rows:
            alias = f"a{self.aliases}"
            self.aliases += 1
            sources.append(f"t{row.table} AS {alias}")
            for column, entry in enumerate(row.entries):
                cell = f"{alias}.c{column}"
                if isinstance(entry, Constant):
                    terms.append(f"{cell} = {entry.value}")
                elif isinstance(entry, Variable) and entry.number not in known:
                    known[entry.number] = cell
                elif isinstance(entry, (Variable, Fixed)):
                    terms.append(f"{cell} = {known[entry.number]}")
        return sources, terms, known

    def set_of(self, number, outer):
        """The block's set: columns n0, d0, n1, d1 and so on."""
        block = self.blocks[number]
        sources, terms, known = self.join(self.live(number), outer)
        terms += [self.condition(condition, known) for condition in block.conditions]
        values = [self.value(element, known) for element in block.output]
        columns = ", ".join(f"{n} AS n{place}, {d} AS d{place}" for place, (n, d) in enumerate(values))
        return f"SELECT DISTINCT {columns}" + clauses(sources, terms)

    def condition(self, condition, known):
        """By cross products; where one value is absent they are NULL, and no row is found."""
        (n, d), (m, e) = self.value(condition.left, known), self.value(condition.right, known)
        return f"({n}) * ({e}) {OPERATORS[condition.operator]} ({m}) * ({d})"

    def value(self, element, known):
        """The expressions of numerator and denominator. All functions pass over NULL, but for count(*)."""
        if isinstance(element, Constant):
            return str(element.value), "1"
        if not isinstance(element, Aggregate):
            return known[element.number], "1"
        rows = self.set_of(element.block, known)
        if len(rows) > LONGEST:
            raise TooLong
        n, d = f"n{element.column}", f"d{element.column}"
        if element.function == 0:
            return f"(SELECT count(*) FROM ({rows}))", "1"
        if element.function == 1:
            return f"(SELECT coalesce(sum({n}), 0) FROM ({rows}))", "1"
        if element.function == 4:
            return tuple(f"(SELECT {part}({n}) / gcd(sum({n}), count({n})) FROM ({rows}))" for part in ("sum", "count"))
        direction = "ASC" if element.function == 2 else "DESC"
        first = f"FROM ({rows}) WHERE {d} IS NOT NULL ORDER BY {n} * 1.0 / {d} {direction} LIMIT 1"
        return f"(SELECT {n} {first})", f"(SELECT {d} {first})"

    def rows(self):
        """The rows of block 0 in SQLite's order, NULL first; a value is (numerator, denominator), absent (0, 0)."""
        order = ", ".join(f"n{place} * 1.0 / d{place}" for place in range(len(self.blocks[0].output)))
        found = self.ask(f"SELECT * FROM ({self.set_of(0, {})}) ORDER BY {order}")
        return [tuple((n or 0, d or 0) for n, d in zip(row[::2], row[1::2])) for row in found]

    def trials(self, plan):
        """The plan's count of trials, a path being a pair of code and column."""
        for number in range(len(self.blocks)):
            self.base.execute(f"DROP TABLE IF EXISTS context{number}")
            self.base.execute(f"DROP TABLE IF EXISTS passing{number}")
        self.base.execute("CREATE TABLE context0 AS SELECT 0 AS of")
        return self.block_trials(0, {}, plan)

    def block_trials(self, number, outer, plan):
        """The trials of all evaluations of a block and below it; `outer` are the variables that a context has."""
        rows, count = self.live(number), 0
        context = {variable: f"context.v{variable}" for variable in outer}
        for place, row in enumerate(rows):
            sources, terms, _ = self.join(rows[:place], context)
            sources, times = [f"context{number} AS context"] + sources, len(self.tables[row.table].rows)
            if place == 0 and plan[number][0] != 0:
                entry, times = row.entries[plan[number][1]], 1
                wanted = entry.value if isinstance(entry, Constant) else context[entry.number]
                sources.append(f"t{row.table} AS first")
                terms.append(f"first.c{plan[number][1]} = {wanted}")
            count += times * self.ask("SELECT count(*)" + clauses(sources, terms))[0][0]
        variables = self.make_passing(number, context)
        for child in self.named(number):
            count += self.block_trials(child, self.make_context(number, child, variables, plan), plan)
        return count

    def make_passing(self, number, context):
        """The table of matches whose plain conditions hold; returns the variables it has."""
        sources, terms, known = self.join(self.live(number), context)
        plain = [condition for condition in self.blocks[number].conditions
                 if not isinstance(condition.left, Aggregate) and not isinstance(condition.right, Aggregate)]
        terms += [self.condition(condition, known) for condition in plain]
        columns = "".join(f", {cell} AS v{variable}" for variable, cell in known.items())
        self.base.execute(f"CREATE TABLE passing{number} AS SELECT context.rowid AS of{columns}"
                          + clauses([f"context{number} AS context"] + sources, terms))
        return list(known)

    def make_context(self, number, child, variables, plan):
        """The table of a child's evaluations: one a passing match, or one a distinct wanted value of its parent's."""
        if plan[child][0] != 2:
            columns, distinct = "".join(f", v{variable}" for variable in variables), ""
        else:
            variables, distinct = [self.live(child)[0].entries[plan[child][1]].number], "DISTINCT "
            columns = f", v{variables[0]}"
        self.base.execute(f"CREATE TABLE context{child} AS SELECT {distinct}of{columns} FROM passing{number}")
        return variables

    def largest_set(self):
        """The rows of the largest set evaluated; call after trials by file."""
        largest = self.ask(f"SELECT count(*) FROM ({self.set_of(0, {})})")[0][0]
        for number in range(len(self.blocks)):
            if self.ask(f"SELECT 1 FROM sqlite_master WHERE name = 'passing{number}'"):
                names = [name for _, name, *_ in self.ask(f"PRAGMA table_info(passing{number})") if name != "of"]
                outer = {int(name[1:]): f"passing.{name}" for name in names}
                for child in self.named(number):
                    sizes = self.ask(f"SELECT max((SELECT count(*) FROM ({self.set_of(child, outer)}))) "
                                     f"FROM passing{number} AS passing")
                    largest = max(largest, sizes[0][0] or 0)
        return largest


def divisor(total, count):
    """What an average is divided through by; NULL, as its total, of no values."""
    return math.gcd(total, count) if count else None


def clauses(sources, terms):
    """FROM and WHERE, each where there is something to say."""
    return ((f" FROM {', '.join(sources)}" if sources else "")
            + (f" WHERE {' AND '.join(terms)}" if terms else ""))
