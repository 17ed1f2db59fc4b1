"""Tables as people have them: headers, delimiters, quotes, marks, decimals, texts, empty cells, standard input. Each case:
name, files, arguments, status, rows printed, what is told."""

from .common import abe, check, files

BRIX = """block top
  pans (pan = P)
  give P as pan, count(each) as samples, ave(each.brix)
block each in top
  samples (sample = S, pan = ^P, brix = B)
  give S, B as brix
plan top file, each merging pan
"""
PANS, SAMPLES = "pan\n1\n2\n", "sample,pan,brix\n11,1,910\n12,1,913\n"
USUAL = {"q.abe": BRIX, "pans.csv": PANS, "samples.csv": SAMPLES}
ALL = ("q.abe", "pans.csv", "samples.csv")
ONE = "block top\n  t (c = A)\n  give A\n"
PLAN = " by top file (the only plan)\n"
MERGED = " by top file, each merging pan\n"
TWO_PANS = "pan  samples  ave(each.brix)\n  1        2  1823/2  911.5\n  2        0       -\n"
EIGHT = "a,b,c,d,e,f,g,h,i,j,k,l"


def rows_of(count):
    return "c\n" + "".join(f"{number}\n" for number in range(count))


def one(content, rows, told, *options, question=ONE, status=0):
    """A case over one table t."""
    return {"q.abe": question, "t.csv": content}, ("q.abe", "t.csv", *options), status, rows, told


CASES = {
    # What is sent.
    "as it is": ({}, ALL, 0, TWO_PANS, "2 rows, 4 trials" + MERGED),
    "an unused text column": ({"samples.csv": "sample,who,pan,brix\n11,Ann,1,910\n12,Bob,1,913\n"}, ALL, 0, TWO_PANS,
                              "2 rows, 4 trials" + MERGED),
    "twelve columns": ({"samples.csv": f"sample,pan,brix,{EIGHT[6:]}\n" + "".join(
        f"{row},x,x,x,x,x,x,x,x,\n" for row in ("11,1,910", "12,1,913"))}, ALL, 0, TWO_PANS, "2 rows, 4 trials" + MERGED),
    "nine files": ({f"t{n}.csv": rows_of(300) for n in range(9)}, (*ALL, *(f"t{n}.csv" for n in range(9))), 0, TWO_PANS,
                   "2 rows, 4 trials" + MERGED),
    "an unused column out of range": (*one("c,d\n1,99999999999\n", "A\n1\n", "1 row, 1 trial" + PLAN),),
    "a table without entries": ({"q.abe": "block top\n t\n t (c = A)\n give A\n", "t.csv": "d,c\nx,1\n,2\n"},
                                ("q.abe", "t.csv"), 0, "A\n1\n2\n", "2 rows, 2 trials" + PLAN),
    "nine columns named": ({"q.abe": "block top\n t (a=1,b=1,c=1,d=1,e=1,f=1,g=1,h=1,i=A)\n give A\n",
                            "t.csv": EIGHT + "\n"}, ("q.abe", "t.csv"), 1, "",
                           "no 3: of t 9 columns are named, 1 to 8 are taken\n"),
    "257 rows": (*one(rows_of(257), "", "no 3: t has 257 rows, a table has at most 256\n", status=1),),
    "a plan by place": ({"q.abe": BRIX.replace("merging pan", "merging 1")}, ALL, 0, TWO_PANS, "2 rows, 4 trials" + MERGED),
    "a plan by bytes": ({"q.abe": BRIX.replace("plan top file, each merging pan", "plan hex 504c0000 504c0201")}, ALL, 0,
                        TWO_PANS, "2 rows, 4 trials" + MERGED),
    # Decimals.
    "decimals": ({"samples.csv": "sample,pan,brix\n11,1,91.0\n12,1,91.3\n"}, ALL, 0,
                 "pan  samples  ave(each.brix)\n  1        2  1823/20  91.15\n  2        0        -\n",
                 "brix in tenths\n2 rows, 4 trials" + MERGED),
    "a constant with decimals": (*one("c\n91\n92\n", " A\n92\n", "c in tenths\n1 row, 2 trials" + PLAN,
                                      question="block top\n t (c = A)\n where A > 91.5\n give A\n"),),
    "a constant in a row": (*one("c,d\n0.50,1\n0.5,2\n.5,3\n0.51,4\n", "D\n1\n2\n3\n",
                                 "c in hundredths\n3 rows, 3 trials by top index c (fewest of all 2 plans)\n",
                                 question="block top\n t (c = 0.5, d = D)\n give D\n"),),
    "two columns linked": ({"q.abe": "block top\n a (x = X)\n b (y = Y)\n where X = Y\n give X, Y\n",
                            "a.csv": "x\n1.5\n2\n", "b.csv": "y\n1.50\n2.25\n"}, ("q.abe", "a.csv", "b.csv"), 0,
                           "  X    Y\n1.5  1.5\n", "x, y in hundredths\n1 row, 6 trials" + PLAN),
    "two columns apart": ({"q.abe": "block top\n a (x = X)\n b (y = Y)\n give X, Y\n", "a.csv": "x\n1.5\n",
                           "b.csv": "y\n1000000\n"}, ("q.abe", "a.csv", "b.csv"), 0, "  X        Y\n1.5  1000000\n",
                          "x in tenths\n1 row, 2 trials" + PLAN),
    "equal constants of one line apart": (
        *one("c,d\n1,1000000\n2.5,3\n", "  A  B\n2.5  3\n", "c in tenths\n1 row, 2 trials" + PLAN,
             question="block top\n t (c = A, d = B)\n where A != 1 and B != 1\n give A, B\n"),),
    "the largest decimal": (*one("c\n100000.0\n-99999.9\n", "       A\n-99999.9\n100000\n", "c in tenths\n2 rows, 2 trials" + PLAN),),
    "over the largest decimal": (*one("c\n1\n100000.1\n", "", "no 4: t.csv, line 3: c is 100000.1, values run from "
                                      "-100,000 to 100,000 in tenths (t.csv, line 3: 100000.1)\n", status=1),),
    "over the largest whole": (*one("c\n1000001\n", "", "no 4: t.csv, line 2: c is 1000001, values run from "
                                    "-1,000,000 to 1,000,000\n", status=1),),
    "far over 32 bits": (*one("c\n1\n" + "9" * 30 + "\n", "", f"no 4: t.csv, line 3: c is {'9' * 30}, values run from "
                              "-1,000,000 to 1,000,000\n", status=1),),
    "decimal commas": (*one("c;d\n91,5;a\n90,25;b\n", "    A\n90.25\n91.5\n", "c in hundredths\n2 rows, 2 trials" + PLAN,
                            "--decimal-comma"),),
    "decimal commas and a constant": (*one("c;d\n91,5;a\n90,25;b\n", "   A\n91.5\n",
                                           "c in hundredths\n1 row, 2 trials" + PLAN, "--decimal-comma", question="block top\n t (c = A)\n where A > 90.5\n give A\n"),),
    # Texts.
    "texts": (*one("c\nred\nblue\nred\n", "A\nblue\nred\n", "2 rows, 3 trials" + PLAN),),
    "texts compared": (*one("c\nred\nblue\ngreen\n", "A\nblue\ngreen\n", "2 rows, 3 trials" + PLAN,
                            question='block top\n t (c = A)\n where A < "orange"\n give A\n'),),
    "a text in a row": (*one("c,d\nred,1\nblue,2\n", "A\n1\n", "1 row, 1 trial by top index c (fewest of all 2 plans)\n",
                             question='block top\n t (c = "red", d = A)\n give A\n'),),
    "a text that no cell has": (*one("c,d\nred,1\n", "A\n", "0 rows, 0 trials by top index c (fewest of all 2 plans)\n",
                                     question="block top\n t (c = 'pink', d = A)\n give A\n"),),
    "the least of texts": (*one("c\nred\nblue\n", "least  greatest\nblue   red\n",
                                "1 row, 2 trials by top file, each file (the only plan)\n",
                                question="block top\n give min(each.c) as least, max(each.c) as greatest\n"
                                         "block each in top\n t (c = A)\n give A as c\n"),),
    "numbers beside texts": ({"q.abe": "block top\n a (x = X)\n b (y = X)\n give X\n", "a.csv": "x\n7\n10\n9\n",
                              "b.csv": "y\n10\nx\n9\n"}, ("q.abe", "a.csv", "b.csv"), 0, "X\n10\n9\n",
                             "a.x is read as text (b.csv, line 3: x)\n2 rows, 12 trials" + PLAN),
    "numbers as text": (*one("c\n20240113007\n007\n7\n", "A\n007\n20240113007\n7\n", "3 rows, 3 trials" + PLAN,
                             "--text", "c"),),
    "numbers of one table as text": (*one("c\n007\n7\n", "A\n007\n7\n", "2 rows, 2 trials" + PLAN, "--text", "t.c"),),
    # Headers and names.
    "any header": ({"q.abe": 'block top\n "lab-2024" ("Sample No" = S, Brüx = B, count = C, budget = "x y")\n'
                             ' give S as "Sample No", B, C as count\n',
                    "lab-2024.csv": "Sample No;Brüx;count;budget\n1;91.5;3;x y\n2;90;4;z\n"}, ("q.abe", "lab-2024.csv"), 0,
                   "Sample No     B  count\n        1  91.5      3\n", "Brüx in tenths\n1 row, 1 trial by top index "
                   "budget (fewest of all 2 plans)\n"),
    "words of the notation as names": (
        {"q.abe": "block give\n plan (where = in, block = and)\n where in > and\n give in as as, count(count)\n"
                  "block count in give\n plan (table = sum, where = ^in)\n give sum\n",
         "plan.csv": "where,block,table\n2,1,5\n1,2,6\n"}, ("q.abe", "plan.csv"), 0, "as  count(count)\n 2             1\n",
        "1 row, 3 trials by give file, count index where (fewest of all 3 plans)\n"),
    "a column without a name": (*one("c,,\n1,2,3\n", "", "t.csv, line 2: 3 cells, but the header has 1 column\n", status=1),),
    "names of columns that stand twice, unused": (*one("d,c,d\n1,2,3\n", "A\n2\n", "1 row, 1 trial" + PLAN),),
    # Files.
    "semicolons": (*one("c;d\n1;x,y\n", "A\n1\n", "1 row, 1 trial" + PLAN),),
    "tabs": (*one("c\td\n1\tx, y; z\n", "A\n1\n", "1 row, 1 trial" + PLAN),),
    "a word on the delimiter": (*one("sep=|\nc|d\n1|2,5\n", "A\n1\n", "1 row, 1 trial" + PLAN),),
    "BOM, CRLF, quotes, blanks": (*one(b"\xef\xbb\xbf\"c\"\r\n +1 \r\n\"-2\"\r\n\r\n", " A\n-2\n 1\n",
                                       "2 rows, 2 trials" + PLAN),),
    "CR alone": (*one(b"c,d\r1,2\r3,4\r", "A\n1\n3\n", "2 rows, 2 trials" + PLAN),),
    "UTF-16": (*one("c\tn\n1\tü\n".encode("utf-16"), "A\n1\n", "1 row, 1 trial" + PLAN),),
    "Windows": (*one("c\nBrüx\n".encode("cp1252"), "A\nBrüx\n", "1 row, 1 trial" + PLAN, "--encoding", "cp1252"),),
    "a quoted line end": (*one('c,d\n1,"x\ny"\n2.5,z\n', "  A\n1\n2.5\n", "c in tenths\n2 rows, 2 trials" + PLAN),),
    "blank lines": (*one("\nc,d\n1,2\n\n,\n3,4\n\n", "A\n1\n3\n", "2 rows, 2 trials" + PLAN),),
    "capital letters": ({"q.abe": ONE, "t.CSV": "c\n1\n"}, ("q.abe", "t.CSV"), 0, "A\n1\n", "1 row, 1 trial" + PLAN),
    "another name": ({"q.abe": ONE, "lab 7.tsv": "c\td\n1\t2\n"}, ("q.abe", "t=lab 7.tsv"), 0, "A\n1\n",
                     "1 row, 1 trial" + PLAN),
    "the question behind the tables": ({"q.abe": ONE, "t.csv": "c\n1\n"}, ("t.csv", "q.abe"), 0, "A\n1\n",
                                       "1 row, 1 trial" + PLAN),
    "a table in the question, one in a file": ({"q.abe": "table pans (pan)\n 1\n" + BRIX}, ("q.abe", "samples.csv"), 0,
                                               TWO_PANS.rsplit("\n", 2)[0] + "\n", "1 row, 3 trials" + MERGED),
    "texts and decimals in the question": ({"q.abe": "table t (c, d)\n red 1.5\n 'dark red', -2\nblock top\n"
                                                     " t (c = A, d = B)\n give A, B\n"}, ("q.abe",), 0,
                                           "A            B\ndark red  -2\nred        1.5\n",
                                           "d in tenths\n2 rows, 2 trials" + PLAN),
    # Empty cells.
    "an empty cell": ({"samples.csv": "sample,pan,brix\n11,,910\n"}, ALL, 1, "",
                      "samples.csv, line 2: pan is empty; --skip-empty leaves such rows out\n"),
    "empty cells left out": ({"samples.csv": SAMPLES + "13,,910\n14,2,\n"}, (*ALL, "--skip-empty"), 0, TWO_PANS,
                             "samples: 2 rows with an empty cell left out\n2 rows, 4 trials" + MERGED),
    "empty cells that are not used": (*one("c,d\n1,\n2,\n", "A\n1\n2\n", "2 rows, 2 trials" + PLAN),),
    "an empty line in one column": (*one("c\n1\n\n2\n", "", "t.csv, line 3: c is empty; --skip-empty leaves such rows "
                                         "out\n", status=1),),
    # Files that are no tables.
    "a cell missing": ({"samples.csv": "sample,pan,brix\n11,1,910\n12,1\n"}, ALL, 1, "",
                       "samples.csv, line 3: 2 cells, but the header has 3 columns\n"),
    "a cell too many": ({"pans.csv": "pan\n1,2\n"}, ALL, 1, "", "pans.csv, line 2: 2 cells, but the header has 1 column\n"),
    "no header": ({"pans.csv": ""}, ALL, 1, "", "pans.csv, line 1: a header line with the columns' names expected\n"),
    "not UTF-8": ({"pans.csv": b"pan\n1\n\xff\n"}, ALL, 1, "",
                  "pans.csv, line 3: not text in UTF-8: --encoding cp1252 reads a file of Windows\n"),
    "a file missing": ({}, ("q.abe", "pots.csv"), 2, "", "pots.csv: No such file or directory\n"),
    "no question": ({}, ("none.abe", "pans.csv"), 2, "", "none.abe: No such file or directory\n"),
    "a file twice": ({}, ("q.abe", "pans.csv", "pans.csv"), 2, "",
                     "pans.csv: a second table pans: write NAME=pans.csv to give it another name\n"),
    "no encoding": ({}, (*ALL, "--encoding", "none"), 2, "", "no encoding none\n"),
    "over 65,536 bytes": ({**{f"t{n}.csv": "a,b,c,d,e,f,g,h\n" + "1,2,3,4,5,6,7,8\n" * 256 for n in range(8)},
                           "q.abe": "".join(f"block b{n} {'in b0' if n else ''}\n" + "".join(
                               f" t{table} ({', '.join(f'{c} = {c}{table}' if c == 'a' else f'{c} = 1' for c in 'abcdefgh')})\n"
                               for table in range(3 * n, min(8, 3 * n + 3))) + f" give a{3 * n}\n" for n in range(3))},
                          ("q.abe", *(f"t{n}.csv" for n in range(8))), 1, "",
                          "bad job: the tables would take 65,604 bytes, at most 65,536 are read\n"),
}


def standard_input():
    """A table from standard input, under a name and without one."""
    with files({"q.abe": ONE, "s.abe": ONE.replace("t (", "stdin (")}) as folder:
        named = abe("q.abe", "t=-", folder=folder, given=b"c;d\n5;x\n")
        bare = abe("s.abe", "-", folder=folder, given=b"c;d\n5;x\n")
        question = abe("ask", "-", folder=folder, given=b"table t (c)\n 5\n" + ONE.encode())
        check("standard input", named[:2] == bare[:2] == question[:2] == (0, "A\n5\n"), named[2].strip())
        wrong = abe("q.abe", "t=-", folder=folder, given=b"c;d\n5\n")
        check("a mistake in standard input", wrong == (1, "", "standard input, line 2: 1 cell, but the header has 2 columns\n"))


def run():
    for name, (contents, arguments, status, rows, told) in CASES.items():
        with files({**USUAL, **contents}) as folder:
            found = abe(*arguments, folder=folder)
        check(f"files: {name}", found == (status, rows, told), "" if found == (status, rows, told) else repr(found))
    standard_input()
