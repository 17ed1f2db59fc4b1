"""Words that people bring from elsewhere, with the right ones, and names that are close to a mistaken one."""

import difflib

GROUPS = "Abe has no groups: let an outer block match each value, and aggregate a block inside it"
LINE_HINTS = {
    "select": "write give for select, at the end of the block",
    "from": "write a table with its columns for from: TABLE (COLUMN = VARIABLE)",
    "having": "write where for having",
    "were": "write where for were",
    "when": "write where for when",
    "if": "write where for if",
    "and": "and stands between two conditions: write where",
    "order": "rows always ascend, the first column first: leave order by out, and give first what is to lead",
    "sort": "rows always ascend, the first column first: leave sort out, and give first what is to lead",
    "group": GROUPS,
    "join": "write the second table on a line of its own, with the same variable in both",
    "limit": "there is no limit: all rows are given",
    "return": "write give for return",
    "returns": "write give for returns",
    "output": "write give for output",
    "print": "write give for print",
    "query": "write block for query",
    "subquery": "write block for subquery",
}
OPERATOR_HINTS = {
    "or": "there is no or: ask twice, or count two blocks",
    "not": "there is no not: write the opposite operator, or count(BLOCK) = 0",
    "exists": "there is no exists: write count(BLOCK) > 0",
    "between": "write two conditions for between: X >= 1 and X <= 9",
    "like": "there is no like: texts are compared by = and <",
    "in": "there is no in: write a table row with the same variable, or count(BLOCK) > 0",
    "is": "write = for is; a value that is absent meets no condition",
    "equals": "write = for equals",
    "order": LINE_HINTS["order"],
    "group": GROUPS,
}


def close(name, known):
    """": did you mean X?" where a known name is close, else ""."""
    by_folded = {each.casefold(): each for each in known}
    found = difflib.get_close_matches(name.casefold(), by_folded, n=1, cutoff=0.6)
    return f": did you mean {shown(by_folded[found[0]])}?" if found else ""


def shown(name):
    """A name as a question has to write it."""
    return name if name.isidentifier() else '"' + name.replace('"', '""') + '"'
