"""Wrong evaluators that check.py must refuse: `variants.py [NAME ..]` tries all of them, or those named.

Each variant is one edit of the evaluator. It is made in a copy of this folder whose stored answers are then written
anew by the wrong evaluator itself, so that only what was written by hand, the numbers meant by the generator, demand 3
and SQLite can tell; the test programs' outputs, which stand outside the folder, are left out. Status 1 if one is not caught. Takes some minutes; not part of check.py.
"""

import os
import shutil
import subprocess
import sys
import tempfile
from concurrent.futures import ThreadPoolExecutor
from pathlib import Path
from usage import help_first

HERE = Path(__file__).resolve().parent

TABLES, QUESTION, CHECKS = "naive/tables.py", "naive/question.py", "naive/checks.py"
PLAN, MATCHING, TRIALS, EVALUATOR = "naive/plan.py", "naive/matching.py", "naive/trials.py", "evaluator.py"


def constants():
    """Every limit, one more and one fewer."""
    for file, name, value in [
            (TABLES, "MOST_TABLES", 8), (TABLES, "MOST_COLUMNS", 8), (TABLES, "MOST_ROWS", 256),
            (TABLES, "LARGEST_VALUE", 1_000_000), (CHECKS, "MOST_BLOCKS", 5), (CHECKS, "MOST_RELATION_ROWS", 3),
            (CHECKS, "MOST_CONDITIONS", 8), (CHECKS, "MOST_OUTPUT", 4), (CHECKS, "MOST_AGGREGATES", 3),
            (CHECKS, "DEEPEST_LEVEL", 4), (CHECKS, "VARIABLES", 16), (CHECKS, "LARGEST_CONSTANT", 10**15),
            (MATCHING, "MOST_SET_ROWS", 256), (EVALUATOR, "RESULT_WORDS", 2_048), (EVALUATOR, "SET_WORDS", 8_192),
            (EVALUATOR, "FILE_WORDS", 8_192), (EVALUATOR, "INDEX_WORDS", 1_280), (EVALUATOR, "LONGEST_PART", 65_536)]:
        for by in (-1, 1):
            yield f"{name.lower()}_{by:+}", file, f"{name} = {value:_}", f"{name} = {value + by}"
    yield "most_words_+1", TABLES, "MOST_WORDS = 16_384", "MOST_WORDS = 16_385"
    yield "most_words_low", TABLES, "MOST_WORDS = 16_384", "MOST_WORDS = 16_376"


ABSENT = "if left is None or right is None:\n        "
ABSENT_MEETS_NONE = f"{ABSENT}return False"
ANSWERS = "[left == right, left != right, left < right, left <= right, left > right, left >= right][operator]"


def operators():
    """Each operator answered the other way at less, equal and greater, and met where one value is absent, or both."""
    for operator, name in enumerate(["equal", "not_equal", "less", "at_most", "greater", "at_least"]):
        for relation, sign in [("less", "<"), ("equal", "=="), ("greater", ">")]:
            yield (f"{name}_turned_at_{relation}", MATCHING, ANSWERS,
                   f"{ANSWERS} != (operator == {operator} and left {sign} right)")
        for which, test in [("left", "right is not None"), ("right", "left is not None"), ("both", "left is right")]:
            yield (f"{name}_met_by_absent_{which}", MATCHING, ABSENT_MEETS_NONE,
                   f"{ABSENT}return operator == {operator} and {test}")


OTHERS = [
    # data and index
    ("words_after_allowed", TABLES, "return len(data) == 1", "return len(data) >= 1"),
    ("low_values_allowed", TABLES, "all(-LARGEST_VALUE <= value <=", "all(value <="),
    ("index_ties_backwards", TABLES, "[column], row))", "[column], -row))"),
    # the records
    ("operator_6", QUESTION, "operator > 5", "operator > 6"),
    ("function_5", QUESTION, "function > 4", "function > 5"),
    ("count_with_column", QUESTION, " or (function == COUNT and column != 0)", ""),
    ("aggregate_byte_3", QUESTION, "any(argument[3:])", "any(argument[4:])"),
    ("aggregate_byte_7", QUESTION, "any(argument[3:])", "any(argument[3:7])"),
    ("empty_with_argument", QUESTION, "if number != 0:", "if number > 1:"),
    ("tail_allowed", QUESTION, "if cursor.at != len(data):", "if False:"),
    ("fixed_put_out", QUESTION, 'b"OL": (2, 4)', 'b"OL": (2, 3, 4)'),
    ("constant_put_out", QUESTION, 'b"OL": (2, 4)', 'b"OL": (1, 2, 4)'),
    ("empty_in_condition", QUESTION, 'b"CD": (1, 2, 3, 4)', 'b"CD": (0, 1, 2, 3, 4)'),
    ("unsigned_arguments", QUESTION, '"little", signed=True', '"little", signed=False'),
    # causes 6 to 10
    ("dropped_rows_not_counted", CHECKS, "len(block.relation_rows) > MOST_RELATION_ROWS",
     "len([r for r in block.relation_rows if any(e != () for e in r.entries)]) > MOST_RELATION_ROWS"),
    ("absent_blocks_not_counted", CHECKS, "for aggregate in block.aggregates()]",
     "for aggregate in block.aggregates() if aggregate.block < len(blocks)]"),
    ("parent_itself", CHECKS, "else parent >= number", "else parent > number"),
    ("block_0_under_0", CHECKS, "return parent != 255 if number == 0", "return parent not in (0, 255) if number == 0"),
    ("grandchild_named", CHECKS, "blocks[aggregate.block].parent != number:",
     "number not in ancestors_of(blocks, aggregate.block):"),
    ("column_one_past", CHECKS, "aggregate.column >= len", "aggregate.column > len"),
    ("empty_row_of_any_table", CHECKS,
     "return row.table >=", "return any(e != () for e in row.entries) and row.table >="),
    ("siblings_share_variables", CHECKS, "for first in range(len(blocks)) for second in range(first))",
     "for first in range(len(blocks)) for second in ancestors_of(blocks, first))"),
    ("variable_of_no_row", CHECKS, "return not variables_of(block) <= standing", "return False"),
    ("fixed_of_own_block", CHECKS, "for ancestor in ancestors_of(blocks, number)))",
     "for ancestor in ancestors_of(blocks, number) + [number]))"),
    ("fixed_of_parent_only", CHECKS, "for ancestor in ancestors_of(blocks, number)))",
     "for ancestor in ancestors_of(blocks, number)[:1]))"),
    ("min_of_ratio_is_whole", CHECKS,
     "element.function in (COUNT, SUM):", "element.function in (COUNT, SUM, MIN, MAX):"),
    ("far_constant_in_rows", CHECKS, "for block in blocks for element in block.elements())\n$",
     "for block in blocks for c in block.conditions for element in c.elements())\n"),
    # the plan
    ("plan_with_more", PLAN, "len(data) != 4 * len(blocks)", "len(data) < 4 * len(blocks)"),
    ("file_with_column", PLAN, " or (path == FILE and column != 0)", ""),
    ("first_row_though_dropped", PLAN, "rows = live(blocks[number])", "rows = blocks[number].relation_rows"),
    ("index_of_variable", PLAN, "return isinstance(entry, (Constant, Fixed))", "return True"),
    ("merging_of_constant", PLAN,
     "return isinstance(entry, Fixed) and", "return isinstance(entry, (Constant, Fixed)) and"),
    ("merging_of_two", PLAN, "(blocks, number)) == 1", "(blocks, number)) >= 1"),
    ("outside_not_below", PLAN,
     "len(outside_variables(blocks, number))", "len(outside_variables(blocks[:number + 1], number))"),
    ("outside_with_own", CHECKS, "return used - own", "return used"),
    # matching
    ("empty_groups_dropped", MATCHING, "if all(self.holds(condition, match, child_sets)",
     "if all(child_sets.values()) and all(self.holds(condition, match, child_sets)"),
    ("equal_values_removed", MATCHING,
     "values = [row[column] for row in rows if row[column] is not None]",
     "values = list({row[column] for row in rows} - {None})"),
    ("average_rounded", MATCHING, "sum(all_) / len(all_)", "Fraction(sum(all_) // len(all_))"),
    ("fixed_not_compared", MATCHING, "isinstance(entry, Fixed) and binding", "False and binding"),
    ("variable_rebound", MATCHING, "isinstance(entry, Variable) and wider.setdefault(entry.number, value) != value",
     "isinstance(entry, Variable) and wider.update({entry.number: value})"),
    ("constant_not_compared", MATCHING, "isinstance(entry, Constant) and entry.value", "False and entry.value"),
    ("less_and_greater_swapped", MATCHING, "left < right, left <= right, left > right,",
     "left > right, left <= right, left < right,"),
    ("operands_swapped", MATCHING, f"return {ANSWERS}", f"left, right = right, left\n    return {ANSWERS}"),
    ("plain_conditions_ignored", MATCHING, "if all(self.holds(condition, match, {}) for condition in plain)]", "]"),
    ("children_only_for_conditions", MATCHING, "for aggregate in block.aggregates()})",
     "for c in block.conditions for aggregate in c.elements() if isinstance(aggregate, Aggregate)})"),
    ("dropped_rows_tried", MATCHING, "if any(not isinstance(entry, Empty) for entry in row.entries)]", "]"),
    ("large_unwanted_group", MATCHING, "or self.too_large_below(0, {})", """or self.too_large_below(0, {}) or any(
            len(self.set_of(child, {self.outside[child][0]: value})) > MOST_SET_ROWS
            for child in range(1, len(self.blocks)) if len(self.outside[child]) == 1
            for table in self.tables for row in table.rows for value in row)"""),
    ("large_at_top_only", MATCHING, " or self.too_large_below(0, {})", ""),
    ("large_one_level_only", MATCHING, "len(rows) > MOST_SET_ROWS or self.too_large_below(child, match)",
     "len(rows) > MOST_SET_ROWS"),
    ("large_where_conditions_hold", MATCHING, "for child, rows in self.child_sets(number, match).items())",
     "for sets in [self.child_sets(number, match)] for child, rows in sets.items()\n"
     "                   if all(self.holds(c, match, sets) for c in self.blocks[number].conditions))"),
    ("large_by_matches", MATCHING, "for match in self.passing(number, binding)\n                   for child",
     "for match in self.matches(number, binding)\n                   for child"),
    # absent values
    ("absent_equals_absent", MATCHING, ABSENT_MEETS_NONE, f"{ABSENT}return left is right and operator in (0, 3, 5)"),
    ("absent_is_unequal", MATCHING, ABSENT_MEETS_NONE, f"{ABSENT}return left is not right and operator == 1"),
    ("absent_is_less", MATCHING, ABSENT_MEETS_NONE, f"{ABSENT}left, right = row_key([left]), row_key([right])"),
    ("absent_compared_as_0", MATCHING, ABSENT_MEETS_NONE, f"{ABSENT}left, right = left or 0, right or 0"),
    ("absent_on_the_right_compared", MATCHING, "if left is None or right is None:\n",
     "if right is None and left is not None:\n        right = 0\n    if left is None:\n"),
    ("absent_last", MATCHING, "[(0,) if value is None", "[(2,) if value is None"),
    ("absent_ordered_as_0", MATCHING, "(0,) if value is None else (1, value)", "(1, value or Fraction(0))"),
    ("average_over_all_rows", MATCHING, "sum(all_) / len(all_)", "sum(all_) / len(rows)"),
    ("count_passes_over_absent", MATCHING, "return Fraction(len(rows))",
     "return Fraction(len([row for row in rows if None not in row]))"),
    ("sum_of_none_absent", MATCHING,
     "return sum(values, Fraction(0))", "return sum(values, Fraction(0)) if values else None"),
    ("others_of_none_0", MATCHING, "if not values:\n        return None", "if not values:\n        return Fraction(0)"),
    ("absent_not_passed_over", MATCHING, "if not values:", "if len(values) < len(rows) or not rows:"),
    ("absent_in_words_0_and_1", EVALUATOR, "return (0, 0) if value is None", "return (0, 1) if value is None"),
    ("absent_printed_in_full", EVALUATOR, '{0: "-", 1:', "{1:"),
    # trials
    ("file_kept", TRIALS, """firsts = {}
        for match in passing:
            firsts.setdefault(self.wanted(child, match), match)
        return list(firsts.values())""", """kept = self.__dict__.setdefault("kept", {}).setdefault(child, set())
        firsts = {}
        for match in passing:
            firsts.setdefault(self.wanted(child, match), match)
        new = [match for value, match in firsts.items() if value not in kept]
        kept.update(firsts)
        return new"""),
    ("merging_as_index", TRIALS, "if self.plan[child].path != MERGING:", "if True:"),
    ("index_as_file", TRIALS, "if place > 0 or self.plan[number].path == FILE:", "if True:"),
    ("misfits_not_counted", TRIALS,
     "self.trial()\n                    wider.append(fit(row.entries, table_row, narrow))",
     "wider.append(fit(row.entries, table_row, narrow))\n                    if wider[-1] is not None:\n"
     "                        self.trial()"),
    ("once_per_aggregate", TRIALS, "for child in named_children(self.matching.blocks[number]):",
     "for child in [a.block for a in self.matching.blocks[number].aggregates()]:"),
    ("trials_at_failed_matches", TRIALS, "passing = self.matching.passing(number, binding)",
     "passing = self.matching.matches(number, binding)"),
    ("unnamed_children_evaluated", TRIALS, "for child in named_children(self.matching.blocks[number]):",
     "for child in [c for c, b in enumerate(self.matching.blocks) if c and b.parent == number]:"),
    ("budget_not_reached", TRIALS, "self.counted > self.budget", "self.counted >= self.budget"),
    # answers and buffers
    ("large_before_budget", EVALUATOR,
     "trials_exceed_the_budget, set_too_large]", "set_too_large, trials_exceed_the_budget]"),
    ("result_before_work", EVALUATOR,
     "CAUSES = [work_buffer_short, result_short,", "CAUSES = [result_short, work_buffer_short,"),
    ("no_trials_under_12", EVALUATOR, "{12: lambda: budget, 13", "{13"),
    ("no_trials_under_13", EVALUATOR, ", 13: lambda: this.trials}", "}"),
    ("work_kept_when_refused", EVALUATOR, "if number == 1 else", "if number > 0 else"),
    ("work_zeroed_under_1", EVALUATOR, "if number == 1 else", "if number == 99 else"),
    ("work_zeroed_beyond", EVALUATOR, "[0] * SET_WORDS + before.sets[SET_WORDS:]", "[0] * len(before.sets)"),
    ("result_zeroed_past_rows", EVALUATOR,
     "return words + before[len(words):]", "return words + [0] * len(before[len(words):])"),
    ("no_columns_without_rows", EVALUATOR,
     "return Answer(0, len(rows), columns,", "return Answer(0, len(rows), columns if rows else 0,"),
    ("rows_as_text", EVALUATOR, "sorted(rows, key=row_key)]", "sorted(rows, key=lambda row: list(map(str, row)))]"),
    ("rows_by_numerators", EVALUATOR,
     "sorted(rows, key=row_key)]", "sorted(rows, key=lambda row: [pair_of(value)[0] for value in row])]"),
    ("rows_last_column_first", EVALUATOR,
     "sorted(rows, key=row_key)]", "sorted(rows, key=lambda row: row_key(row)[::-1])]"),
    ("rows_descend", EVALUATOR, "sorted(rows, key=row_key)]", "sorted(rows, key=row_key, reverse=True)]"),
    ("index_short_before_absent", EVALUATOR, "    tables = tables_of(data)\n    if not 0 <= table",
     "    tables = tables_of(data)\n    if not before:\n        return 2, before\n    if not 0 <= table"),
    ("bytes_after_the_plan", EVALUATOR, "if at != len(job) or len(data)", "if len(data)"),
    ("odd_data_bytes", EVALUATOR, "at != len(job) or len(data) % 4 != 0", "at != len(job)"),
]


def edited(text, old, new):
    """The text with one edit; `old` ending in $ stands for the last place, else it must be the only one."""
    if old.endswith("$"):
        head, found, tail = text.rpartition(old[:-1])
        assert found, old
        return head + new + tail
    assert text.count(old) == 1, f"{text.count(old)} places: {old}"
    return text.replace(old, new)


def tried(variant):
    """The check that caught a variant, or None."""
    name, file, old, new = variant
    with tempfile.TemporaryDirectory() as folder:
        copy = Path(folder) / "tests"
        shutil.copytree(HERE, copy, ignore=shutil.ignore_patterns("__pycache__"))
        target = copy / file
        target.write_text(edited(target.read_text(), old, new))
        for arguments in (["--write"], ["--apart"]):
            run = subprocess.run([sys.executable, str(copy / "check.py"), *arguments], capture_output=True, text=True)
            if run.returncode != 0:
                return name, (run.stdout.strip().splitlines() or [""])[-3:], run.stderr.strip().splitlines()[-1:]
    return name, None, None


def main(names):
    chosen = [variant for variant in [*constants(), *operators(), *OTHERS] if not names or variant[0] in names]
    missed = 0
    with ThreadPoolExecutor(os.cpu_count()) as pool:
        for name, said, error in pool.map(tried, chosen):
            if said is None:
                missed += 1
            first = next((line for line in said or [] if "DIFFERS" in line), "an error: " + "".join(error or []))
            print(f"{name}: {'NOT CAUGHT' if said is None else first}", flush=True)
    print(f"{len(chosen)} variants, {missed} not caught")
    sys.exit(1 if missed else 0)


if __name__ == "__main__":
    help_first(__doc__)
    main(sys.argv[1:])
