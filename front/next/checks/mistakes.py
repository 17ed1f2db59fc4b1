"""Each mistake with its message, what is accepted though it is written otherwise, and what is doubted."""

from .common import abe, check, files

TABLES = {"pans.csv": "pan\n1\n2\n", "samples.csv": "sample,pan,brix,tank\n11,1,91.0,A\n12,1,91.3,B\n13,2,91.3,B\n"}
TOP = "block top\n pans (pan = P)\n"
EACH = "block each in top\n samples (sample = S, pan = ^P, brix = B)\n give S, B as brix\n"

# Question, and how the only line told begins; the status is 1.
REFUSED = {
    # The notation.
    TOP + " were P > 1\n give P\n": "line 3: write where for were",
    TOP + " whre P > 1\n give P\n": "line 3: no table whre: did you mean where?",
    TOP + " select P\n": "line 3: write give for select, at the end of the block",
    TOP + " having P > 1\n give P\n": "line 3: write where for having",
    TOP + " give P\n order by P\n": "line 4: rows always ascend, the first column first: leave order by out, and give first "
                                    "what is to lead",
    TOP + " give P order by P\n": "line 3: rows always ascend, the first column first: leave order by out, and give first "
                                  "what is to lead",
    TOP + " group by P\n give P\n": "line 3: Abe has no groups: let an outer block match each value, and aggregate a block "
                                    "inside it",
    TOP + " where P > 1 or P < 0\n give P\n": "line 3: there is no or: ask twice, or count two blocks",
    TOP + " where not P = 1\n give P\n": "line 3: there is no not: write the opposite operator, or count(BLOCK) = 0",
    TOP + " where P between 1 and 2\n give P\n": "line 3: write two conditions for between: X >= 1 and X <= 9",
    TOP + " where 1 < P < 3\n give P\n": "line 3: a condition has two sides: write two, joined by and",
    TOP + " where P ! 3\n give P\n": "line 3: cannot read '! 3'",
    TOP + " where P\n give P\n": "line 3: an operator expected at the end of the line",
    TOP + " where P = 'x\n give P\n": "line 3: the quote of 'x is not closed",
    TOP + " where P > 1 give P\n": "line 3: write give on a line of its own",
    TOP + " give P, 5\n": "line 3: give takes variables and aggregates",
    TOP + " give P Q\n": "line 3: ',' expected, not 'Q'",
    TOP + " give P\n give P\n": "line 4: block top has a give already: name all its columns there",
    TOP: "line 1: block top has no give",
    "pans (pan = P)\n give P\n": "line 1: a relation row stands in a block only: write block top above it",
    "block top\n pans (pan > 1)\n give P\n": "line 2: comparisons stand in conditions: write pan = X here and where X > 1 "
                                             "below",
    "block top\n pans (pan == 1)\n give P\n": "line 2: write pan = 1: a relation row has no ==",
    "block top\n pans (pan P)\n give P\n": "line 2: '=' expected, not 'P'",
    "block top\n pans (pan = P\n give P\n": "line 2: ',' or ')' expected at the end of the line",
    "block top\n pans (pan = P, pan = Q)\n give P\n": "line 2: column pan twice",
    "block top\n pans (pan = sum(each.brix))\n give P\n": "line 2: an aggregate stands in where and give only: write a "
                                                          "variable here and a condition below",
    TOP + " give P\nblock each\n pans (pan = Q)\n give Q\n": "line 4: block each stands in no other: write block each in top",
    TOP + " give P\nplan top fast\n": "line 4: file, index or merging expected, not 'fast'",
    TOP + " give P\nbudget many\n": "line 4: the budget expected, not 'many'",
    # Names.
    "block top\n pan (pan = P)\n give P\n": "line 2: no table pan: did you mean pans?",
    "block top\n colours (pan = P)\n give P\n": "line 2: no table colours, neither above nor among the files",
    "block top\n samples (Brix = P)\n give P\n": "line 2: table samples has no column Brix: did you mean brix?",
    TOP + " give P, count(echo)\n" + EACH: "line 3: no block echo: did you mean each?",
    TOP + " give P, ave(each.brx)\n" + EACH: "line 3: block each gives no column brx: did you mean brix?",
    TOP + " give P, ave(each.purity)\n" + EACH: "line 3: block each gives no column purity: it gives S, brix",
    TOP + " give P, sum(each)\n" + EACH: "line 3: sum(each) names no column: write sum(each.S) or sum(each.brix)",
    TOP + " give P, count(each.brix)\n" + EACH: "line 3: count takes a block alone: write count(each)",
    TOP + " give P, count(*)\n" + EACH: "line 3: write count(BLOCK): an aggregate names a block",
    TOP + " give P, median(each.brix)\n" + EACH: "line 3: no function median: did you mean mean?",
    TOP + " give P\nplan tip file\n": "line 4: no block tip: did you mean top?",
    # Numbers 6 to 13, with their lines.
    TOP + " give P, P, P, P, P\n": "no 6: line 3: block top has 5 output columns, a block has at most 4",
    TOP + " pans (pan = P)\n" * 3 + " give P\n": "no 6: line 5: block top has 4 relation rows, a block has at most 3",
    TOP + " where P > 0\n" * 9 + " give P\n": "no 6: line 11: block top has 9 conditions, a block has at most 8",
    TOP + " give\n": "no 6: line 1: block top gives nothing, a block gives 1 to 4 columns",
    "# nothing\n": "no 6: line 1: no block, a question has 1 to 5",
    TOP + " give P, count(each)\n where count(each) > 0 and count(each) > 1 and count(each) > 2\n" + EACH:
        "no 6: line 3: 4 aggregates name block each, at most three may",
    TOP + " give P, ave(each.2)\n" + EACH: "no 7: line 3: ave(each.2) in block top: block each gives 2 columns, numbered "
                                           "from 0",
    TOP + " give count(top)\n": "no 7: line 3: count(top) in block top: block top is no child of block top",
    TOP + " give P, count(each)\nblock each in top\n samples (sample = S, pan = P)\n give S\n":
        "no 8: line 5: P belongs to block top: write ^P",
    TOP + " give P, count(each)\nblock each in top\n samples (sample = S, brix = B)\n where B > P\n give S\n":
        "no 8: line 6: P belongs to block top: write ^P",
    TOP + " give Pan\n": "no 8: line 3: variable Pan stands in no relation row of block top: there stands P",
    TOP + " give p\n": "no 8: line 3: variable p stands in no relation row of block top: did you mean P?",
    TOP + " give P, count(each)\n" + EACH.replace("^P", "^Pan"):
        "no 8: line 5: ^Pan in block each: Pan is a variable of no block around it: there stands P",
    TOP + " give ave(mid.m)\nblock mid in top\n pans (pan = Q)\n give ave(each.brix) as m\n"
    + EACH.replace("top", "mid"): "no 9: line 3: ave(mid.m): only count, min and max are taken of a ratio column",
    TOP + " where P < 1000000000000001\n give P\n": "no 10: line 3: constant 1000000000000001 in block top is beyond "
                                                   "±1,000,000,000,000,000",
    TOP + " where P < 900000000000000.55\n give P\n": "no 10: line 3: constant 900000000000000.55 in block top is beyond "
                                                     "±1,000,000,000,000,000 when scaled",
    TOP + " give P\nplan top index pan\n": "no 11: line 4: the plan of block top: index wants a constant or a fixed "
                                           "variable at column pan",
    TOP + " give P\nbudget 1\n": "no 12: line 4: over the budget of 1 trials",
    # What cannot be set against each other.
    TOP + " give P, sum(each.T)\nblock each in top\n samples (sample = S, pan = ^P, tank = T)\n give S, T\n":
        "line 3: sum(each.T): tank is text (samples.csv, line 2: A): count, min and max only",
    "block top\n samples (tank = T)\n where T > 5\n give T\n":
        'line 3: 5 is a number, but tank is text (samples.csv, line 2: A): write "5" if the text is meant',
    "block top\n samples (brix = 'x', tank = T)\n give T\n": 'line 2: "x" is text, but all cells of brix are numbers',
    "block top\n samples (tank = T)\n where count(each) = T\n give T\nblock each in top\n pans (pan = P)\n give P\n":
        "line 3: count(each) is a number, but tank is text (samples.csv, line 2: A)",
    TOP + " where count(each) > 2.5\n give P\n" + EACH: "line 3: count(each) > 2.5: a count is whole: write count(each) >= 3",
    TOP + " where 2.5 > count(each)\n give P\n" + EACH: "line 3: count(each) < 2.5: a count is whole: write count(each) <= 2",
    TOP + " where count(each) = 2.5\n give P\n" + EACH: "line 3: count(each) = 2.5: a count is whole: this is never so",
    "block top\n samples (brix = B)\n where count(each) > B\n give B\nblock each in top\n pans (pan = P)\n give P\n":
        "line 3: count(each) is whole and cannot be set against decimals (samples.csv, line 3: 91.3): give whole numbers in "
        "brix",
}

# What is accepted: a question, and the same as the notation has it.
ACCEPTED = {
    TOP + " gives P\n": TOP + " give P\n",
    TOP + " WHERE P > 1\n GIVE P\n": TOP + " where P > 1\n give P\n",
    TOP + " give P, avg(each.brix)\n" + EACH: TOP + " give P, ave(each.brix) as \"ave(each.brix)\"\n" + EACH,
    TOP + " give P, ave(brix, each)\n" + EACH: TOP + " give P, ave(each.brix)\n" + EACH,
    TOP + " give P, max(each)\nblock each in top\n samples (pan = ^P, brix = B)\n give B\n":
        TOP + " give P, max(each.B)\nblock each in top\n samples (pan = ^P, brix = B)\n give B\n",
    TOP + " where P <> 1\n give P\n": TOP + " where P ≠ 1\n give P\n",
    TOP + " where P == 1\n give P\n": TOP + " where P = 1\n give P\n",
    TOP + " where P => 2\n give P\n": TOP + " where P >= 2\n give P\n",
    TOP + " where P > - 5\n give P\n": TOP + " where P > -5\n give P\n",
    TOP + " where P > +1\n give P\n": TOP + " where P > 1\n give P\n",
    TOP + " where (P > 1) and (P < 9)\n give P\n": TOP + " where P > 1\n where P < 9\n give P\n",
    TOP + " where P > 0\n   and P < 2\n give P\n": TOP + " where P > 0 and P < 2\n give P\n",
    TOP + " where P > 0 and\n   P < 2\n give P\n": TOP + " where P > 0 and P < 2\n give P\n",
    TOP + " give P\n where P > 1\n": TOP + " where P > 1\n give P\n",
    "block top\n where P > 1\n pans (pan = P)\n give P\n": TOP + " where P > 1\n give P\n",
    "block top\n pans (\n  pan = P\n )\n give P\n": TOP + " give P\n",
    "block top\n samples (sample = S,\n   brix = B)  # over two lines\n give S, B;\n":
        "block top\n samples (sample = S, brix = B)\n give S, B\n",
    TOP + " give pan: P\n": TOP + " give P as pan\n",
    TOP + " give P\n" + "plan top FILE\n": TOP + " give P\nplan top file\n",
    "block top\n pans (pan = '1')\n pans (pan = P)\n give P\n": "block top\n pans (pan = 1)\n pans (pan = P)\n give P\n",
    TOP + " give P, count(a), count(b)\nblock a in top\n samples (pan = ^P, sample = S)\n give S\n"
          "block b in top\n samples (pan = ^P, tank = S)\n give S\n":
        TOP + " give P, count(a), count(b)\nblock a in top\n samples (pan = ^P, sample = S)\n give S\n"
              "block b in top\n samples (pan = ^P, tank = T)\n give T\n",
}

# What check doubts.
DOUBTED = {
    TOP + " give P, sum(each.B)\nblock each in top\n samples (pan = ^P, brix = B)\n give B\n": [],
    TOP + " give P, ave(each.B)\nblock each in top\n samples (brix = B)\n give B\n": [
        "doubt: line 3: ave(each.B) is absent where each has no rows: it is printed as - then",
        "doubt: line 3: ave(each.B): equal values of different rows of each count once (samples.csv, line 3 and line 4): "
        "give sample too"],
    TOP + " where max(each.brix) > 91\n give P\n" + EACH: [
        "doubt: line 3: max(each.brix) is absent where each has no rows: no condition on it holds then"],
    "block top\n samples (sample = S, tank = b)\n give S\n": [],
    "block top\n samples (sample = S, brix = B, tank = C)\n give S, B, C\n": [],
}


def told(question, command="ask"):
    with files({**TABLES, "q.abe": question}) as folder:
        return abe(command, "q.abe", *TABLES, folder=folder)


def run():
    for question, words in REFUSED.items():
        found = told(question)
        check(f"mistake: {words}", found == (1, "", words + "\n"), "" if found == (1, "", words + "\n") else repr(found))
        by_check = told(question, "check")
        is_run = words.startswith("no 12")
        check(f"checked: {words}", is_run or (by_check[0] == 1 and words in by_check[2].splitlines()),
              "" if is_run or words in by_check[2] else repr(by_check))
    for question, same in ACCEPTED.items():
        found, expected = told(question), told(same)
        check(f"accepted: {question!r}", found == expected and found[0] == 0, "" if found == expected else repr(found))
    for question, doubts in DOUBTED.items():
        status, out, err = told(question, "check")
        last = f"no mistakes, {len(doubts)} doubt{'s' if len(doubts) > 1 else ''}" if doubts else "no mistakes"
        check(f"doubted: {question!r}", (status, out) == (0, "") and err.splitlines() == [*doubts, last], repr(err))
    several()


def several():
    """One check tells the mistakes of all lines."""
    found = told("block top\n pan (pan = P)\n were P > 1\n give P Q\nblock each in tip\n give S\n", "check")
    check("several mistakes at once", found == (1, "", """line 2: no table pan: did you mean pans?
line 3: write where for were
line 4: ',' expected, not 'Q'
line 5: no block tip above: did you mean top?
line 6: give stands in a block only
5 mistakes
"""), repr(found))
