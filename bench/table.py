#!/usr/bin/env python3
"""The table of run.sh: table.py TIMES COUNTS.

A time is the least over all rounds. File plans of W1 to W3 are in ns per trial, all others in
microseconds per question. C is limit.c on the same plan: for file plans the loop that counts
each trial it makes, and beside it the one that counts once per scan (`C once`) and, for W4, X1 and
X5, the one that also leaves a scan where the rows found so far decide (`C first`). Rust is naive.rs,
file scans only: `hoist`, and the better of the two plain ones. SQLite on the same path is `scan` for
file, the better of `free` and `index` for index, `group` for merging; its best is the best of
all its forms for that question. `Ir` are instructions of one call, by callgrind. `spread` is the
engine's worst round by its best: well over 1, the machine was busy.

Targets: C3, at most 3 times C on the same plan; 1.5, under 1.5 ns per trial (file plans); S20,
20 times as fast as SQLite (index and merging; `mixed`, index for block 1 and merging for block 2,
is the engine's alone), where `S20 path` holds it against SQLite on the
same path and `S20 best` against its best form.
"""
import collections, os, sys

if sys.argv[1:2] in (["-h"], ["--help"]):
    sys.exit(print(__doc__.strip()))

EXPECTED = {}
for name in sorted(os.listdir("expected")):
    with open("expected/" + name) as f:
        _, rows, _, trials = f.readline().split()
        EXPECTED[tuple(name.removesuffix(".out").split("-"))] = int(rows), int(trials)
ROWS = {w: rows for (w, _), (rows, _) in EXPECTED.items()}      # the same under every plan

times = collections.defaultdict(list)
for line in open(sys.argv[1]):
    _, engine, w, variant, least, _, rows, trials = line.split()
    if engine == "sqlite":
        want, got = ROWS[w], int(rows)
    else:
        plan = variant if (w, variant) in EXPECTED else "file"
        want, got = EXPECTED[w, plan], (int(rows), int(trials))
    if got != want:
        sys.exit("DIFFERS when timed: %s %s %s: %s, not %s" % (engine, w, variant, got, want))
    times[w, engine, variant].append(float(least))
least = {k: min(v) for k, v in times.items()}

counts = {}
for line in open(sys.argv[2]):
    engine, w, variant, n = line.split()
    counts[w, engine, variant] = int(n)

SAME_PATH = {"file": ["scan"], "index": ["free", "index"], "merging": ["group"]}
HEAD = ["", "plan", "trials", "rows", "unit", "engine", "C", "engine/C", "C once", "C first", "engine/first",
        "Rust hoist", "Rust plain", "SQLite path", "/engine", "SQLite best", "/engine", "engine Ir", "C Ir", "Ir/Ir", "spread", "missed"]


def line_of(w, p):
    rows, trials = EXPECTED[w, p]
    if p == "mixed":        # no other engine has it
        e = least[w, "abe", p]
        spread = "%.2f" % (max(times[w, "abe", p]) / e)
        return [w.upper(), p, str(trials), str(rows), "us", "%.1f" % e] + [""] * 11 + [str(counts[w, "abe", p]), "", "", spread, ""]
    file = p == "file"
    by_trial = file and w in ("w1", "w2", "w3")

    def us(engine, *variants):
        return min(least[w, engine, v] for v in variants)

    def shown(t):
        return "%.2f" % (t * 1e3 / trials) if by_trial else "%.1f" % t

    c_name = "counted" if file else p
    e, c = us("abe", p), us("limit", c_name)
    path, best = us("sqlite", *SAME_PATH[p]), min(t for (x, g, _), t in least.items() if (x, g) == (w, "sqlite"))
    ir, cir = counts[w, "abe", p], counts[w, "limit", c_name]
    missed = [name for name, failed in (("C3", e > 3 * c), ("1.5", file and e * 1e3 / trials >= 1.5),
                                        ("S20 path", not file and path < 20 * e),
                                        ("S20 best", not file and best < 20 * e)) if failed]
    once = [shown(us("limit", "file"))] if file else [""]
    first = [shown(us("limit", "first")), "%.1f" % (e / us("limit", "first"))] if (w, "limit", "first") in least else [""] * 2
    rust = [shown(us("naive", "hoist")), shown(us("naive", "linear", "hash"))] if file else [""] * 2
    return [w.upper(), p, str(trials), str(rows), "ns/trial" if by_trial else "us", shown(e), shown(c), "%.1f" % (e / c),
            *once, *first, *rust, shown(path), "%.1f" % (path / e), "%.0f us" % best,
            "%.1f" % (best / e), str(ir), str(cir), "%.1f" % (ir / cir), "%.2f" % (max(times[w, "abe", p]) / e),
            ", ".join(missed) or "none"]


body = [line_of(w, p) for w, p in EXPECTED]
wide = [max(len(r[i]) for r in [HEAD] + body) for i in range(len(HEAD))]
for r in [HEAD, ["-" * n for n in wide]] + body:
    print("| " + " | ".join(x.ljust(n) if i in (0, 1, 4, len(HEAD) - 1) else x.rjust(n)
                            for i, (x, n) in enumerate(zip(r, wide))) + " |")
