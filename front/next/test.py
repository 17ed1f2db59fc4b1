"""Tests abe as far as it is written: the examples beside SQLite, every question under tests/questions, tables and mistakes as
people have them. Damaged files are tried by hand: `python3 front/next/checks/damaged.py`.

    python3 front/next/test.py [SUBJECT ..]

Prints a line for each check; status 1 if one fails. The program named budgeted is proved and built first where it is not
there. Subjects: examples, questions, files, mistakes. Still to be written: formats, plans, prompt, stored, packaging.
"""

import importlib
import sys
from pathlib import Path

sys.dont_write_bytecode = True
FRONT = Path(__file__).resolve().parent
sys.path[:0] = [str(FRONT), str(FRONT.parent.parent / "tests")]

from checks.common import FAILED        # noqa: E402
from command.program import program     # noqa: E402
from usage import help_first            # noqa: E402

SUBJECTS = ("examples", "questions", "files", "mistakes")


def main(subjects):
    program("budgeted")
    for subject in subjects or SUBJECTS:
        importlib.import_module(f"checks.{subject}").run()
    print(f"{len(FAILED)} failed: {', '.join(FAILED)}" if FAILED else "all passed")
    return 1 if FAILED else 0


if __name__ == "__main__":
    help_first(__doc__)
    sys.exit(main(sys.argv[1:]))
