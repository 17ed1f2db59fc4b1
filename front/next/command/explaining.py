"""What a question does: its blocks, and each admitted plan with its trials."""

import itertools
from dataclasses import replace

from text.format import many
from text.hints import shown

from .answering import answered, check_buffers, refusal
from .causes import INDEX, MERGING, joined, path_fault, variable_name
from .plans import MOST_TRIED, admitted_plans, path_text, paths_of, plan_text
from .trees import levels_of, live_rows, outside_of


def explained(question):
    """The lines of the explanation; or Refused."""
    trials, admitted = tried_plans(question)
    lines = [line for number in range(len(question.blocks)) for line in block_lines(question, number)]
    lines.append("plans, fewest trials first:")
    counts = [f"{count:,}" if count is not None else f"over {question.budget:,}" for count, _ in trials]
    width = max(map(len, counts))
    lines += [f"  {count.rjust(width)}  {plan_text(question, plan)}" for count, (_, plan) in zip(counts, trials)]
    lines.append(f"all {many(admitted, 'admitted plan')} tried" if len(trials) == admitted and admitted > 1 else
                 f"{len(trials)} of {many(admitted, 'admitted plan')} tried")
    return lines


def tried_plans(question):
    """(trials or None where over the budget, plan) of the plans, fewest first; and how many are admitted."""
    check_buffers(question)
    admitted, plans = admitted_plans(question)
    tried = []
    for plan in itertools.islice(plans, MOST_TRIED):
        number, _, trials = answered(replace(question, plan=plan))
        if number not in (0, 12):
            raise refusal(replace(question, plan=plan), number)
        tried.append((trials, plan))
    return sorted(tried, key=lambda each: (each[0] is None, each)), admitted


def block_lines(question, number):
    block, name = question.blocks[number], question.block_names[number]
    rows, dropped = live_rows(block), len(block.relation_rows) - len(live_rows(block))
    inside = f", in {shown(question.block_names[block.parent])}" if number else ""
    yield f"block {shown(name)}, level {levels_of(question.blocks)[number]}{inside}"
    yield "  relation rows: " + (", ".join(shown(question.tables[table].name) for table, _ in rows) or "none") + (
        f" ({dropped} without entries dropped)" if dropped else "")
    outside = [variable_name(question, variable) for variable in outside_of(question.blocks, number)]
    yield "  variables from outside: " + (joined(outside) if outside else "none")
    yield "  paths: " + ", ".join(path_text(question, number, *path) for path in reversed(paths_of(question, number)))
    yield from refused_paths(question, number)


def refused_paths(question, number):
    """Why merging or an index is not admitted, where it is not for any column."""
    paths, rows = paths_of(question, number), live_rows(question.blocks[number])
    for path, word in ((INDEX, "index"), (MERGING, "merging")):
        if any(found == path for found, _ in paths):
            continue
        if not rows:
            yield f"  no {word}: it wants a relation row with an entry"
            continue
        table, entries = rows[0]
        name = shown(question.tables[table].name)
        faults = [path_fault(question, number, path, column) for column in range(len(entries))]
        many_outside = [fault for fault in faults if "from outside" in fault]
        wanted = "a constant or a fixed variable" if path == INDEX else "a fixed variable"
        yield f"  no {word}: " + (many_outside[0].removeprefix(f"{word} ").replace("wants", "it wants", 1)
                                  if many_outside else f"it wants {wanted} in the first relation row, {name}")
