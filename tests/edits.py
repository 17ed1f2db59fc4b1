#!/usr/bin/env python3
"""Wrong programs that stand outside the gate: `edits.py [CRATE ..] [--jobs N]` has the prover try all of them, or those
of the crates named. Each is to be refused.

An edit stands in tests/edits/CRATE, in the form of crates/CRATE/must-fail. The edits are tried by `rt must-fail` in a copy
of crates/, a crate at a time with its edits alone; rt begins there with what checks kept here, so that a crate already
proved is not proved again. An edit shows nothing where it is refused only because a proof file names what it took away, or
only by a limit of the prover: no fact was refused. Status 1 if an edit is not refused, cannot be tried (BAD EDIT) or shows
nothing. A crate takes minutes; by hand.
"""

import argparse
import os
import re
import shutil
import subprocess
import sys
import tempfile
from pathlib import Path

HERE = Path(__file__).resolve().parent
TOP = HERE.parent
EDITS = HERE / "edits"
SHOWS_NOTHING = "only because a proof file names", "only by a limit of the prover"
NOT_TRIED = "NOT TRIED"
LONGEST = 200           # characters of what rt says that are printed


def pairs_of(edit):
    """The replacements of an edit file, as `rt` reads them: file, old text, new text. A line `file:` holds for the
    pairs after it; a text is the rest of its line; a line of another kind is passed over."""
    file = old = ""
    for line in edit.read_text().split("\n"):
        if line.startswith("file: "):
            file = line.removeprefix("file: ")
        elif line.startswith("old: "):
            old = line.removeprefix("old: ")
        elif line.startswith("new:"):
            yield file, old, line.removeprefix("new:").removeprefix(" ")
            old = ""


def copied(folder):
    """A copy of what rt reads, without must-fail edits, and without what rt keeps in out/: it finds that here by itself."""
    copy = Path(folder) / "copy"
    copy.mkdir()
    for name in ("crates.txt", "HANDLES"):
        if (TOP / name).exists():
            shutil.copy(TOP / name, copy)
    shutil.copytree(TOP / "crates", copy / "crates", ignore=shutil.ignore_patterns("out", "must-fail"))
    return copy


def try_edits(copy, crate, jobs):
    """Has `rt` try the edits of one crate, up to so many at a time; what it says."""
    place = copy / "crates" / crate / "must-fail"
    shutil.copytree(EDITS / crate, place)
    environment = os.environ | ({"RT_JOBS": str(jobs)} if jobs else {})
    done = subprocess.run(["rt", "must-fail", crate], cwd=copy, env=environment, stdout=subprocess.PIPE,
                          stderr=subprocess.STDOUT, text=True)
    shutil.rmtree(place)        # the next crate may depend on this one
    return done.stdout


def verdict(said, crate, name):
    """What came of an edit, as `rt` has it."""
    found = re.search(rf"^rt: must-fail {crate}/{re.escape(name)}\.edit: (.*)$", said, re.MULTILINE)
    if not found:
        return f"{NOT_TRIED}: rt says nothing of it"
    if not found[1].startswith("refused"):
        return found[1][:LONGEST]
    if any(words in found[1] for words in SHOWS_NOTHING):
        return f"refused, shows nothing: {found[1][:LONGEST]}"
    return "refused"


def main():
    having = sorted({path.parent.name for path in EDITS.glob("*/*.edit")})
    arguments = argparse.ArgumentParser(description="Tries the wrong programs of tests/edits.")
    arguments.add_argument("crates", nargs="*", metavar="CRATE", help=f"of {', '.join(having) or 'none'}; default: all")
    arguments.add_argument("--jobs", type=int, metavar="N", help="edits at a time (default: that of rt)")
    asked = arguments.parse_args()
    for crate in asked.crates:
        if crate not in having:
            sys.exit(f"no edits in tests/edits/{crate}")
    verdicts = []
    with tempfile.TemporaryDirectory() as folder:
        copy = copied(folder)
        for crate in asked.crates or having:
            said = try_edits(copy, crate, asked.jobs)
            names = [path.stem for path in sorted((EDITS / crate).glob("*.edit"))]
            found = [verdict(said, crate, name) for name in names]
            for name, came in zip(names, found):
                print(f"{crate}/{name} {came}", flush=True)
            if any(came.startswith(NOT_TRIED) for came in found):
                print(f"the last that rt said of {crate}:\n{said[-2000:]}", flush=True)
            verdicts += found
    good = verdicts.count("refused")
    print(f"{len(verdicts)} edits, {good} of them refused at a fact")
    sys.exit(0 if good == len(verdicts) else 1)


if __name__ == "__main__":
    main()
