#!/usr/bin/env python3
"""Write the benchmark jobs, in the listing's job format of the scope paper.

    gen.py [FOLDER]      default: jobs

Each of W1 to W3 has one job per plan (file, index, merging); the tables and the question
are the same in the three. W4, W5 and X1 to X7 have one job each. Everything comes from
generators of fixed seeds, so two runs write equal bytes. Block 0 is a file scan under every
plan: nothing outside it is wanted.
"""
import os, random, struct, sys

if sys.argv[1:2] in (["-h"], ["--help"]):
    sys.exit(print(__doc__.strip()))

OUT = sys.argv[1] if len(sys.argv) > 1 else "jobs"


class Lcg:
    def __init__(self, seed):
        self.s = seed

    def below(self, n):
        self.s = (self.s * 6364136223846793005 + 1442695040888963407) % (1 << 64)
        return (self.s >> 33) % n


def data(tables):
    words = [len(tables)]
    for rows, cols in tables:
        words += [cols, len(rows)]
    for rows, cols in tables:
        for r in rows:
            assert len(r) == cols
            words += r
    assert len(words) <= 16384
    return struct.pack("<%di" % len(words), *words)


EMPTY = (0, 0)
def const(k): return (1, k)
def var(v): return (2, v)
def fixed(v): return (3, v)
def agg(f, block, col): return (4, f | block << 8 | col << 16)
COUNT, SUM, MIN, MAX, AVE = range(5)
EQ, NE, LT, LE, GT, GE = range(6)


def elems(es):
    return b"".join(struct.pack("<Bq", k, a) for k, a in es)


def block(parent, rws, ol, cds=()):
    b = b"BK" + bytes([parent])
    for table, es in rws:
        b += b"RW" + bytes([table, len(es)]) + elems(es)
    for op, x, y in cds:
        b += b"CD" + bytes([op]) + elems([x, y])
    return b + b"OL" + bytes([len(ol)]) + elems(ol)


def question(*blocks):
    return b"".join(blocks) + b"EN"


FILE, INDEX, MERGING = 0, 1, 2
def plan(*recs):
    return b"".join(b"PL" + bytes(r) for r in recs)


def write(name, d, q, p):
    with open(os.path.join(OUT, name + ".job"), "wb") as f:
        for mark, part in ((b"DA", d), (b"QU", q), (b"PN", p)):
            f.write(mark + struct.pack("<I", len(part)) + part)


def plans(name, d, q, column_of_blocks):
    for path, word in ((FILE, "file"), (INDEX, "index"), (MERGING, "merging")):
        recs = [(FILE, 0)] + [(path, 0 if path == FILE else c) for c in column_of_blocks]
        write("%s-%s" % (name, word), d, q, plan(*recs))


def job_j():
    """Job J of the scope paper, so that a broken build shows before any figure."""
    d = data([([[1], [2], [3], [2]], 1),
              ([[11, 1, 910], [12, 1, 913], [13, 2, 905], [14, 2, 905]], 3)])
    q = question(block(255, [(0, [var(0)])], [var(0), agg(AVE, 1, 1)]),
                 block(0, [(1, [var(1), fixed(0), var(2)])], [var(1), var(2)]))
    plans("j", d, q, [1])
    return q


def job_w1(q):
    """J's question; 256 pans with repeats, 256 samples with repeated rows."""
    g = Lcg(1)
    pans = [[1 + g.below(96)] for _ in range(256)]
    samples = [[1000 + i, 1 + g.below(80), 850 + g.below(100)] for i in range(240)]
    samples += [list(samples[g.below(240)]) for _ in range(16)]
    plans("w1", data([(pans, 1), (samples, 3)]), q, [1])


def job_w2():
    """Three relation rows joined by shared variables, with the count of a child block."""
    g = Lcg(2)
    t0 = [[i, g.below(8)] for i in range(256)]
    t1 = [[g.below(8), g.below(8)] for _ in range(256)]
    t2 = [[i % 8, i] for i in range(64)]
    t3 = []
    for d in range(64):
        n = (2, 3, 5, 6)[d // 8 % 4]
        t3 += [[d, 10 * d + (0 if k == 5 else k)] for k in range(n)]
    t3 = [t3[(i * 101) % 256] for i in range(256)]
    d = data([(t0, 2), (t1, 2), (t2, 2), (t3, 2)])
    q = question(block(255, [(0, [var(0), var(1)]), (1, [var(1), var(2)]),
                             (2, [var(2), var(3)])],
                       [var(1), var(2), agg(COUNT, 1, 0)]),
                 block(0, [(3, [fixed(3), var(4)])], [var(4)]))
    plans("w2", d, q, [0])


def job_w3():
    """Example 6 of report 475: salaries summed by department, averaged by division."""
    g = Lcg(3)
    div = [[1 + i, g.below(256), 100 + g.below(900)] for i in range(50)]
    dep = [[100 + i, 1 + g.below(50), g.below(256)] for i in range(250)]
    emp = [[i, 1000 + g.below(9000), 100 + g.below(250), g.below(40), g.below(256)]
           for i in range(256)]
    d = data([(div, 3), (dep, 3), (emp, 5)])
    q = question(block(255, [(0, [var(0), EMPTY, EMPTY])], [var(0), agg(AVE, 1, 1)]),
                 block(0, [(1, [var(1), fixed(0), EMPTY])], [var(1), agg(SUM, 2, 1)]),
                 block(1, [(2, [var(2), var(3), fixed(1), EMPTY, EMPTY])],
                       [var(2), var(3)]))
    plans("w3", d, q, [1, 2])
    write("w3-mixed", d, q, plan((FILE, 0), (INDEX, 1), (MERGING, 2)))


def keyed(g, keys):
    """Rows of a key and a value under 1,000."""
    return [[k, g.randrange(1000)] for k in keys]


def shuffled(g):
    return g.sample(range(256), 256)


def job_w4(g):
    """Three relation rows that share no variable, joined by conditions."""
    d = data([(keyed(g, range(256)), 2) for _ in range(3)])
    q = question(block(255, [(0, [var(0), var(1)]), (1, [var(2), var(3)]), (2, [var(4), var(5)])],
                       [var(0), var(1)],
                       [(EQ, var(0), var(2)), (EQ, var(2), var(4)), (LT, var(1), var(5))]))
    write("w4-file", d, q, plan((FILE, 0)))


def job_w5(g):
    """Four levels of sums, each block a child of the one before."""
    d = data([([[i] for i in range(16)], 1),
              ([[i, i % 16] for i in range(64)], 2),
              ([[i, i % 64] for i in range(128)], 2),
              ([[i, i % 128, g.randrange(1000)] for i in range(256)], 3)])
    q = question(block(255, [(0, [var(0)])], [var(0), agg(SUM, 1, 1)]),
                 block(0, [(1, [var(1), fixed(0)])], [var(1), agg(SUM, 2, 1)]),
                 block(1, [(2, [var(2), fixed(1)])], [var(2), agg(SUM, 3, 1)]),
                 block(2, [(3, [var(3), fixed(2), var(4)])], [var(3), var(4)]))
    write("w5-merging", d, q, plan((FILE, 0), *[(MERGING, 1)] * 3))


def job_x1(g):
    """The second relation row between two that a condition joins, itself joined to nothing."""
    a = keyed(g, range(256))
    d = data([(a, 2), ([[i % 16] for i in range(128)], 1), (keyed(g, shuffled(g)), 2)])
    q = question(block(255, [(0, [var(0), var(1)]), (1, [var(2)]), (2, [var(3), var(4)])],
                       [var(0), var(4)], [(EQ, var(0), var(3)), (LT, var(1), var(4))]))
    write("x1-file", d, q, plan((FILE, 0)))


def job_x3(g):
    """Two relation rows joined by a condition, with count and sum of a child block."""
    a, b = keyed(g, range(256)), keyed(g, shuffled(g))
    c = [[g.randrange(256), g.randrange(1000)] for _ in range(256)]
    q = question(block(255, [(0, [var(0), var(1)]), (1, [var(2), var(3)])],
                       [var(0), agg(COUNT, 1, 0), agg(SUM, 1, 0)],
                       [(EQ, var(0), var(2)), (LT, var(1), var(3))]),
                 block(0, [(2, [fixed(0), var(4)])], [var(4)]))
    write("x3-index", data([(a, 2), (b, 2), (c, 2)]), q, plan((FILE, 0), (INDEX, 0)))


def job_x5(g):
    """Two relation rows joined by a variable of four values, with a condition on the second."""
    d = data([([[i % 4, i] for i in range(256)], 2), (keyed(g, [i % 4 for i in range(256)]), 2)])
    q = question(block(255, [(0, [var(0), var(1)]), (1, [var(0), var(2)])],
                       [var(1), var(0)], [(GT, var(2), const(800))]))
    write("x5-file", d, q, plan((FILE, 0)))


def job_x7(g):
    """Three relation rows joined by variables, conditions in both blocks and on an aggregate."""
    a = [[g.randrange(64), i] for i in range(256)]
    b = [[g.randrange(64), g.randrange(64)] for _ in range(256)]
    c = [[g.randrange(64), g.randrange(8)] for _ in range(256)]
    d = [[g.randrange(8), g.randrange(1000)] for _ in range(128)]
    q = question(block(255, [(0, [var(0), var(1)]), (1, [var(0), var(2)]), (2, [var(2), var(3)])],
                       [var(3), var(2), agg(AVE, 1, 0)],
                       [(LT, var(1), const(64)), (NE, var(2), var(3)),
                        (GT, agg(SUM, 1, 0), const(100))]),
                 block(0, [(3, [fixed(3), var(4)])], [var(4)], [(GT, var(4), const(10))]))
    write("x7-merging", data([(t, 2) for t in (a, b, c, d)]), q, plan((FILE, 0), (MERGING, 0)))


os.makedirs(OUT, exist_ok=True)
job_w1(job_j())
job_w2()
job_w3()
g = random.Random(4)
job_w4(g)
job_w5(g)
g = random.Random(7)
for job, words in (job_x1, 1413), (job_x3, 1629), (job_x5, 1136), (job_x7, 0):
    job(g)
    g.getrandbits(32 * words)       # what a question between them drew, which is left out
