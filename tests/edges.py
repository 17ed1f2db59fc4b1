"""Edges worked out by hand: the words of every buffer, the index by itself, jobs that the listing refuses, errors in
the notation.

Each case is (what, what was got, what the paper says).
"""

import evaluator
import format as fmt
import limits
import notation

J = fmt.Job(fmt.data_words(limits.J_TABLES), fmt.question_bytes(limits.j_blocks()), fmt.plan_bytes([(0, 0), (2, 1)]))
J_LISTING = "ok 3 2 8\n1 1823/2\n2 905\n3 -\n"
J_WORDS = [1, 1, 1823, 2, 2, 1, 905, 1, 3, 1, 0, 0]
J_SAMPLES = 1


def run_j(lengths=tuple(fmt.BUFFER_WORDS), **change):
    given = {"data": J.data, "question": J.question, "plan": J.plan, "budget": J.budget, **change}
    return evaluator.run(**given, before=evaluator.buffers(lengths))


def sevens(words, zeros=0):
    return [0] * zeros + [7] * (words - zeros)


def buffer_cases():
    """Every word of the four buffers, all 7 before, two longer than required."""
    longer = tuple(length + 2 for length in fmt.BUFFER_WORDS)
    zeroed = [sevens(8_194, 8_192), sevens(8_194, 8_192), sevens(1_282, 1_280)]
    accepted = run_j(longer)
    yield "J's figures", accepted[:4], (0, 3, 2, 8)
    yield "J's words", list(accepted.after), [J_WORDS + sevens(2_050 - 12)] + zeroed
    for what, number, trials, change in [
            ("3", 3, 0, {"data": [0]}), ("5", 5, 0, {"question": b""}), ("11", 11, 0, {"plan": b""}),
            ("12", 12, 7, {"budget": 7})]:
        refused = run_j(longer, **change)
        yield f"figures under {what}", refused[:4], (number, 0, 0, trials)
        yield f"words under {what}", list(refused.after), [sevens(2_050)] + zeroed
    short = run_j((2_047, 8_192, 8_192, 1_280))
    yield "figures under 2", short[:4], (2, 0, 0, 0)
    yield "words under 2", list(short.after), [sevens(2_047), [0] * 8_192, [0] * 8_192, [0] * 1_280]
    for place in (1, 2, 3):
        lengths = list(fmt.BUFFER_WORDS)
        lengths[place] -= 1
        short = run_j(tuple(lengths), data=[0])
        yield f"figures under 1, buffer {place}", short[:4], (1, 0, 0, 0)
        yield f"words under 1, buffer {place}", list(short.after), [sevens(length) for length in lengths]
    tables = [(1, [[value] for value in range(count)]) for count in (16, 17)]
    pairs = limits.job(tables, [limits.block(rows=[(0, [limits.var(0)]), (1, [limits.var(1)])],
                                             output=[limits.var(0), limits.var(1)])])
    large = evaluator.run_job(pairs)
    yield "figures under 13", large[:4], (13, 0, 0, 288)
    yield "words under 13", list(large.after), [sevens(2_048), [0] * 8_192, [0] * 8_192, [0] * 1_280]
    yield "no row", list(run_j(longer, data=fmt.data_words([(1, []), limits.SAMPLES])).after), [sevens(2_050)] + zeroed


def index_cases():
    """Rows by value, then row number; refusals 3, 4, 7, 2 in that order."""
    def index(table, column, words, data=J.data):
        return evaluator.index(data, table, column, sevens(words))
    high = fmt.data_words([(1, [[1_000_001]])])
    yield "samples by pan", index(1, 1, 4), (0, [0, 1, 2, 3])
    yield "samples by Brix", index(1, 2, 4), (0, [2, 3, 0, 1])
    yield "pans, a longer buffer", index(0, 0, 6), (0, [0, 1, 3, 2, 7, 7])
    yield "a negative value first", index(0, 0, 3, fmt.data_words([(1, [[0], [-5], [4]])])), (0, [1, 0, 2])
    yield "no row, no word", index(0, 0, 0, [1, 1, 0]), (0, [])
    yield "a word short", index(1, 1, 3), (2, [7, 7, 7])
    yield "absent table", index(2, 0, 9), (7, sevens(9))
    yield "absent column", index(1, 3, 9), (7, sevens(9))
    yield "absent column of pans", index(0, 1, 9), (7, sevens(9))
    yield "7 before 2", index(2, 0, 0), (7, [])
    yield "4 before 7", index(1, 0, 9, high), (4, sevens(9))
    yield "4 before 2", index(0, 0, 0, high), (4, [])
    yield "3 before 4", index(0, 0, 9, high + [0]), (3, sevens(9))
    yield "no data", index(0, 0, 9, []), (3, sevens(9))


def parts(data, question=J.question, plan=J.plan):
    return fmt.part(b"DA", data) + fmt.part(b"QU", question) + fmt.part(b"PN", plan)


def listing_jobs():
    """Jobs for the program named listing: (name, bytes, what it prints)."""
    job = fmt.job_bytes(J)
    data = job[6:6 + 4 * len(J.data)]
    question_at, plan_at = 6 + len(data), 12 + len(data) + len(J.question)
    yield "j", job, J_LISTING
    yield "nothing", b"", "bad job\n"
    yield "first_mark_wrong", b"da" + job[2:], "bad job\n"
    yield "second_mark_wrong", job[:question_at] + b"PN" + job[question_at + 2:], "bad job\n"
    yield "third_mark_wrong", job[:plan_at] + b"PM" + job[plan_at + 2:], "bad job\n"
    yield "head_cut", job[:4], "bad job\n"
    yield "data_cut", job[:20], "bad job\n"
    yield "question_missing", job[:question_at], "bad job\n"
    yield "plan_missing", job[:plan_at], "bad job\n"
    yield "last_byte_missing", job[:-1], "bad job\n"
    yield "byte_after", job + b"\0", "bad job\n"
    yield "second_job_after", job + job, "bad job\n"
    yield "data_of_odd_bytes", parts(data + b"\0"), "bad job\n"
    yield "length_of_all_ones", b"DA\xff\xff\xff\xff" + job[6:], "bad job\n"
    yield "heads_first", (job[:6] + job[question_at:question_at + 6] + job[plan_at:plan_at + 6] + data + J.question
                          + J.plan), "bad job\n"
    yield "data_empty", parts(b""), "no 3\n"
    yield "question_empty", parts(data, b""), "no 5\n"
    yield "plan_empty", parts(data, plan=b""), "no 11\n"
    yield "plan_of_one_record", parts(data, plan=J.plan[:4]), "no 11\n"


def long_listing_jobs():
    """A part of 65,536 bytes is allowed, one byte more is not."""
    data, most = fmt.job_bytes(J)[6:6 + 4 * len(J.data)], 65_536
    yield "data of 65,536 bytes", parts(bytes(most)), "no 3\n"
    yield "data of 65,540 bytes", parts(bytes(most + 4)), "bad job\n"
    yield "question of 65,536 bytes", parts(data, J.question + bytes(most - len(J.question))), "no 5\n"
    yield "question of 65,537 bytes", parts(data, J.question + bytes(most + 1 - len(J.question))), "bad job\n"
    yield "plan of 65,536 bytes", parts(data, plan=bytes(most)), "no 11\n"
    yield "plan of 65,537 bytes", parts(data, plan=bytes(most + 1)), "bad job\n"


def listing_cases():
    for name, job, text in [*listing_jobs(), *long_listing_jobs()]:
        yield f"listing, {name}", evaluator.listing(job), text


TEXT = """table pans (pan)
  1
block top
  pans (pan = P)
  give P
"""


def notation_cases():
    """Errors in the notation are told with their line."""
    for old, new, wanted in [
            ("  1", "  1 2", "line 2: 2 values, but the table has 1 columns"),
            ("  1", "  one", "line 2: a relation row stands in a block only"),
            ("  1", "  99999999999", "line 2: a value 99999999999 is not from -2147483648 to 2147483647"),
            ("pans (pan = P)", "pots (pan = P)", "line 4: no table pots above"),
            ("pan = P", "pin = P", "line 4: table pans has no column pin"),
            ("pan = P", "pan = P, pan = Q", "line 4: column pan twice"),
            ("pan = P", "pan P", "line 4: '=' expected, not 'P'"),
            ("pan = P", "pan = $", "line 4: cannot read '$)'"),
            ("pan = P)", "pan = P", "line 4: ')' expected at the end of the line"),
            ("give P", "give 5", "line 5: give takes variables and aggregates"),
            ("give P", "give ave(each.brix)", "line 5: no block each"),
            ("give P", "give P Q", "line 5: ',' expected, not 'Q'"),
            ("give P", "where P ~ 5", "line 5: cannot read '~ 5'"),
            ("give P", "where P 5", "line 5: an operator expected, not '5'"),
            ("  give P\n", "", "line 3: this block has no give"),
            ("give P", "give P\nblock each", "line 6: the first block has no parent, and every other block has one"),
            ("give P", "give P\nblock each in tip", "line 6: no block tip above"),
            ("give P", "give P\nplan top index brix", "line 6: table pans has no column brix"),
            ("give P", "give P\nplan tip file", "line 6: no block tip"),
            ("give P", "give P\nplan hex 5z", "line 6: 5z is not bytes in hexadecimal digits"),
            ("give P", "give P\nbudget -1", "line 6: the budget -1 is not from 0 to 18446744073709551615")]:
        try:
            got = notation.compile_text(TEXT.replace(old, new, 1))
        except notation.NotationError as error:
            got = str(error)
        yield f"notation, {new!r}", got, wanted


def all_cases():
    yield from notation_cases()
    yield from buffer_cases()
    yield from index_cases()
    yield from listing_cases()
