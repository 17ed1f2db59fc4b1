#!/usr/bin/env python3
"""Where the instructions of one abe_run go: shares.py NAME TOTAL CALLGRIND-FILE.

The eight functions with most instructions of their own, with what the compiler put into them;
functions that it put into their callers have no line. Then the matches
of all blocks, and who calls memcpy and memset, how often."""
import re, subprocess, sys

if sys.argv[1:2] in (["-h"], ["--help"]):
    sys.exit(print(__doc__.strip()))

name, total, path = sys.argv[1], int(sys.argv[2]), sys.argv[3]
LINE = re.compile(r"\s*([\d,]+) \([^)]*\)\s+([*<]?)\s*(.*?)(?: \(([\d,]+)x\))?(?: \[[^\]]*\]?)?$")


def number(text):
    return int(text.replace(",", ""))


def function(text):
    """The bare name: no source file, no recursion level, no processor's variant."""
    f = text.split(" [")[0]
    m = re.match(r"(?:\?\?\?|[^:]*/[^:]*):(.*)", f)
    f = re.sub(r"'\d+$", "", m.group(1) if m else f)
    return re.sub(r"^__(mem\w+?)_(avx|sse|evex|erms).*", r"\1", f)


out = subprocess.run(["callgrind_annotate", "--tree=caller", "--threshold=100", path],
                     capture_output=True, text=True, check=True).stdout
own, calls, pending = {}, {}, []
for line in out.splitlines():
    m = LINE.match(line)
    if not m or m.group(2) not in ("<", "*"):
        continue
    f = function(m.group(3))
    if m.group(2) == "<":
        pending.append((f, number(m.group(1)), number(m.group(4) or "0")))
        continue
    own[f] = own.get(f, 0) + number(m.group(1))
    for caller, cost, n in pending:
        old = calls.setdefault(f, {}).get(caller, (0, 0))
        calls[f][caller] = old[0] + cost, old[1] + n
    pending = []

print("%s: %d instructions" % (name, total))
for f in sorted(own, key=own.get, reverse=True)[:8]:
    print("  %5.1f%%  %s" % (100 * own[f] / total, f))
matches = sum(n for _, n in calls.get("evaluation::cycle::at_match", {}).values())
print("  matches (calls of evaluation::cycle::at_match): %d, %.0f instructions for each" % (matches, total / max(matches, 1)))
for f in ("memcpy", "memset"):
    top = sorted(calls.get(f, {}).items(), key=lambda x: -x[1][0])[:4]
    print("  %s called by: %s" % (f, "; ".join("%s, %d times, %.1f%%" % (g, n, 100 * c / total) for g, (c, n) in top)))
