"""Faults: ways to damage a draft that was accepted, each with the number that it should bring.

A fault is a function of a source of choices and a draft. It changes the draft and returns True, or leaves it and
returns False where the draft has no place for it. A fault by itself brings its number; of several the lowest is meant.
"""

import format as fmt

ABSENT_NUMBERS = [16, 17, 255, 256, -1, 2**63 - 1, -2**63]
FAR_CONSTANTS = [10**15 + 1, -10**15 - 1, 2**63 - 1, -2**63]
CHANGED_BUDGET = 5_000
HUGE_VALUES = [1_000_001, -1_000_001, 2**31 - 1, -2**31]


def change_word(at, value):
    """A patch that puts a value at a place of the data."""
    return lambda words: words[:at] + [value] + words[at + 1:]


def data_layout(draw, draft):
    """Counts, length or layout of the data."""
    size, count = len(fmt.data_words(draft.tables)), len(draft.tables)
    table = draw.below(count)
    rows, left, more = len(draft.tables[table][1]), draw.below(size), draw.one_of([0, 5, 2_000_000])
    draft.data_patches.append(draw.one_of([
        change_word(0, draw.one_of([0, -1, 9, 2_000_000])),
        change_word(1 + 2 * table, draw.one_of([0, -1, 9, 2**31 - 1])),
        change_word(2 + 2 * table, draw.one_of([-1, 257, rows + 1, -2**31])),
        lambda words: words[:left],
        lambda words: words + [more],
        lambda words: words[:1 + 2 * count - 1],
        lambda words: []]))
    return True


def data_value(draw, draft):
    cells = sum(columns * len(rows) for columns, rows in draft.tables)
    if cells == 0:
        return False
    at = 1 + 2 * len(draft.tables) + draw.below(cells)
    draft.data_patches.insert(0, change_word(at, draw.one_of(HUGE_VALUES)))
    return True


def places(draft, kinds=(0, 1, 2, 3, 4)):
    """The elements of these kinds: (the list or record they stand in, place, record's mark, block)."""
    found = []
    for number, block in enumerate(draft.blocks):
        found += [(row[1], at, "RW", number) for row in block.relation_rows for at in range(len(row[1]))]
        found += [(block.conditions, (at, side), "CD", number)
                  for at in range(len(block.conditions)) for side in (1, 2)]
        found += [(block.output, at, "OL", number) for at in range(len(block.output))]
    return [place for place in found if element_at(place)[0] in kinds]


def element_at(place):
    holder, at, record, _ = place
    return holder[at[0]][at[1]] if record == "CD" else holder[at]


def put_element(place, element):
    holder, at, record, _ = place
    if record == "CD":
        condition = list(holder[at[0]])
        condition[at[1]] = element
        holder[at[0]] = tuple(condition)
    else:
        holder[at] = element


def replace_one(draw, draft, kinds, make):
    """Replaces one element of these kinds by what `make` gives for it; False if there is none or nothing to give."""
    found = places(draft, kinds)
    if not found:
        return False
    place = draw.one_of(found)
    element = make(element_at(place), place)
    if element is None:
        return False
    put_element(place, element)
    return True


def wrong_kind(draw, draft):
    """An unknown kind, or a kind in the wrong record."""
    wrong = {"RW": [4, 5, 255], "CD": [0, 5, 16], "OL": [0, 1, 3, 5]}
    return replace_one(draw, draft, (0, 1, 2, 3, 4), lambda old, place: (draw.one_of(wrong[place[2]]), 0))


def wrong_argument(draw, draft):
    """An argument byte that must be 0, or a function code over 4."""
    def make(old, _):
        if old[0] == fmt.EMPTY:
            return fmt.EMPTY, draw.one_of([1, 1 << 56, -1])
        if draw.chance(50):
            return fmt.AGGREGATE, old[1] | 1 << draw.between(24, 63)
        return fmt.AGGREGATE, old[1] & ~255 | draw.one_of([5, 6, 255])
    return replace_one(draw, draft, (fmt.EMPTY, fmt.AGGREGATE), make)


def count_with_column(draw, draft):
    """A count that names a column."""
    return replace_one(draw, draft, (fmt.AGGREGATE,),
                       lambda old, _: (fmt.AGGREGATE, old[1] & 0xFF00 | draw.between(1, 255) << 16))


def wrong_operator(draw, draft):
    return add_condition(draw, draft, (fmt.CONSTANT, 0), (fmt.CONSTANT, 0), operator=draw.one_of([6, 7, 255]))


def wrong_records(draw, draft):
    """A mark, the order of records, a cut or a tail."""
    left = draw.below(len(fmt.question_bytes(draft.blocks)))
    tail, end = draw.one_of([b"EN", b"\0", b"BK\0"]), draw.one_of([b"en", b"OL\0EN", b"CD\0EN", b"RW\0\0EN", b"EN\0"])
    draft.question_patches.append(draw.one_of([
        lambda question: question[:left],
        lambda question: question + tail,
        lambda question: question[:-2] + end,
        lambda question: b"bK" + question[2:],
        lambda question: question.replace(b"OL", b"OK", 1),
        lambda question: b"",
        lambda question: question[3:]]))
    return True


def add_condition(draw, draft, left, right, operator=0, number=None):
    """One more condition, in a block that has room for it."""
    roomy = [block for at, block in enumerate(draft.blocks)
             if len(block.conditions) < 8 and number in (None, at)]
    if not roomy:
        return False
    conditions = draw.one_of(roomy).conditions
    conditions.insert(draw.below(len(conditions) + 1), (operator, left, right))
    return True


def too_many(draw, draft):
    """One over a count limit, or an output list of none."""
    block, choice = draw.one_of(draft.blocks), draw.below(6)
    if choice == 0:
        while len(draft.blocks) <= 5:
            draft.blocks.append(fmt.BlockText(0, [], [], [(fmt.VARIABLE, 0)]))
    elif choice == 1:
        while len(block.relation_rows) <= 3:
            block.relation_rows.append((0, [(fmt.EMPTY, 0)] * draft.tables[0][0]))
    elif choice == 2:
        while len(block.conditions) <= 8:
            block.conditions.append((0, (fmt.CONSTANT, 0), (fmt.CONSTANT, 0)))
    elif choice == 3:
        block.output = [block.output[0] if block.output else (fmt.VARIABLE, 0)] * draw.between(5, 9)
    elif choice == 4:
        block.output = []
    else:
        named = fmt.aggregate(0, draw.one_of([0, 1, 77, 255]))
        block.conditions = block.conditions[:6] + [(0, named, named), (1, named, named)]
    return True


def wrong_relation_row(draw, draft):
    """An absent table, an entry more or one fewer; all-empty rows too."""
    rows = [(block.relation_rows, at) for block in draft.blocks for at in range(len(block.relation_rows))]
    if not rows:
        return False
    holder, at = draw.one_of(rows)
    table, entries = holder[at]
    holder[at] = draw.one_of([(draw.between(len(draft.tables), 255), entries),
                              (table, entries + [(fmt.EMPTY, 0)]), (table, entries[:-1]), (table, [])])
    return True


def wrong_variable_number(draw, draft):
    return replace_one(draw, draft, (fmt.VARIABLE, fmt.FIXED), lambda old, _: (old[0], draw.one_of(ABSENT_NUMBERS)))


def wrong_parent(draw, draft):
    number = draw.below(len(draft.blocks))
    draft.blocks[number].parent = draw.one_of([0, 1, 254]) if number == 0 else draw.one_of([number, number + 1, 255])
    return True


def wrong_aggregate(draw, draft):
    """Not of a child, or of an absent column."""
    def make(old, place):
        children = [child for child, block in enumerate(draft.blocks) if child and block.parent == place[3]]
        named = [element_at(other)[1] >> 8 & 255 for other in places(draft, (fmt.AGGREGATE,))]
        others = [number for number in range(7) if number not in children and named.count(number) < 3]
        if draw.chance(50):
            return fmt.AGGREGATE, old[1] & ~0xFF00 | draw.one_of(others) << 8
        return fmt.aggregate(draw.between(1, 4), old[1] >> 8 & 255, draw.one_of([4, 5, 255]))
    return replace_one(draw, draft, (fmt.AGGREGATE,), make)


def standing(draft):
    """The variables of each block."""
    return [{element_at(place)[1] for place in places(draft, (fmt.VARIABLE,)) if place[3] == number}
            for number in range(len(draft.blocks))]


def misplaced_variable(draw, draft):
    """Of another block, of no relation row, or fixed and of no ancestor."""
    variables = standing(draft)
    number = draw.below(len(draft.blocks))
    others = sorted(set(range(16)) - variables[number])
    above, at = set(), number
    while 0 < at < len(draft.blocks) and draft.blocks[at].parent < at:
        at = draft.blocks[at].parent
        above |= variables[at]
    strangers = sorted(set(range(16)) - above)
    wrong = (fmt.VARIABLE, draw.one_of(others)) if draw.chance(50) else (fmt.FIXED, draw.one_of(strangers))
    return add_condition(draw, draft, wrong, (fmt.CONSTANT, 1), number=number)


def ratio_summed(draw, draft):
    """Min or max of a ratio column turned into sum or ave."""
    ratio = {}
    for number in reversed(range(len(draft.blocks))):
        for column, (kind, argument) in enumerate(draft.blocks[number].output):
            below = argument >> 8 & 255, argument >> 16
            ratio[number, column] = kind == fmt.AGGREGATE and (
                argument & 255 == 4 or (argument & 255 in (2, 3) and ratio.get(below, False)))
    found = [place for place in places(draft, (fmt.AGGREGATE,)) if element_at(place)[1] & 255 in (2, 3)
             and ratio.get((element_at(place)[1] >> 8 & 255, element_at(place)[1] >> 16))]
    if not found:
        return ratio_made_and_summed(draw, draft)
    place = draw.one_of(found)
    put_element(place, (fmt.AGGREGATE, element_at(place)[1] & ~255 | draw.one_of([1, 4])))
    return True


def ratio_made_and_summed(draw, draft):
    """A child made to give the average of its own child, and summed in a condition of its parent."""
    named = [element_at(place)[1] >> 8 & 255 for place in places(draft, (fmt.AGGREGATE,))]
    blocks = draft.blocks
    chains = [(blocks[child].parent, child, below) for below, block in enumerate(blocks) for child in [block.parent]
              if below > 0 and 0 < child < below and blocks[child].parent < child
              and named.count(child) < 3 and named.count(below) < 3]
    if not chains:
        return False
    parent, child, below = draw.one_of(chains)
    if not add_condition(draw, draft, fmt.aggregate(draw.one_of([1, 4]), child), (fmt.CONSTANT, 0), number=parent):
        return False
    blocks[child].output[:1] = [fmt.aggregate(4, below)]
    return True


def far_constant(draw, draft):
    far = (fmt.CONSTANT, draw.one_of(FAR_CONSTANTS))
    if draw.chance(40) and replace_one(draw, draft, (fmt.CONSTANT,), lambda old, _: far):
        return True
    return add_condition(draw, draft, far, (fmt.CONSTANT, 0), operator=draw.below(6))


def wrong_plan(draw, draft):
    """A path that is not admitted, or records that are none."""
    number = draw.below(len(draft.paths))
    at, mark, cut = 4 * number, draw.one_of([b"pL", b"PN", b"LP"]), draw.between(1, 4)
    if draw.chance(50):
        wrong = [(path, column) for path in (0, 1, 2, 3, 255) for column in (0, 1, 2, 3, 4, 8, 255)
                 if (path, column) not in draft.admitted_before[number]]
        draft.paths[number] = draw.one_of(wrong)
    else:
        draft.plan_patches.append(draw.one_of([
            lambda plan: plan[:at] + mark + plan[at + 2:],
            lambda plan: plan[:-cut],
            lambda plan: plan + b"PL\0\0",
            lambda plan: plan + b"P",
            lambda plan: b""]))
    return True


FAULTS = [(3, data_layout), (4, data_value), (5, wrong_kind), (5, wrong_argument), (5, count_with_column),
          (5, wrong_operator), (5, wrong_records), (6, too_many), (7, wrong_relation_row), (7, wrong_variable_number),
          (7, wrong_parent), (7, wrong_aggregate), (8, misplaced_variable), (9, ratio_summed), (10, far_constant),
          (11, wrong_plan)]


def inflict(draw, draft, count):
    """Damages the draft by `count` faults of different numbers; the lowest number meant, None if there is no place."""
    draft.admitted_before = draft.admitted()
    numbers = draw.shuffled(range(3, 12))[:count]
    for number in sorted(numbers, reverse=True):
        fault = draw.one_of([fault for brings, fault in FAULTS if brings == number])
        if not fault(draw, draft):
            return None
    return min(numbers)


def inflict_data(draw, draft):
    """Damages the data alone."""
    if draw.chance(50) or not data_value(draw, draft):
        data_layout(draw, draft)


def change_bytes(draw, job):
    """One to three bytes of the question or the plan changed, or the question cut; the budget kept small, since a
    changed question may try many rows."""
    question, plan = bytearray(job.question), bytearray(job.plan)
    for _ in range(draw.between(1, 3)):
        target = plan if draw.chance(15) else question
        target[draw.below(len(target))] = draw.below(256) if draw.chance(40) else draw.below(6)
    if draw.chance(15):
        question = question[:draw.below(len(question))]
    return fmt.Job(job.data, bytes(question), bytes(plan), CHANGED_BUDGET, job.lengths)
