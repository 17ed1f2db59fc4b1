"""Answers a question: `ask.py FILE` takes a file in the notation, `ask.py --job FILE` the bytes of a job.

    python3 tests/ask.py tests/questions/j.abe              # by the evaluator, at once
    python3 tests/ask.py --listing tests/questions/j.abe    # by the proved program, built first where it is not there

It prints the listing, as the evaluator works it out; `--figures` before FILE prints "NUMBER ROWS COLUMNS TRIALS" in
place of the listing's first line, as the .out files under questions/ have it. `ask.py --listing FILE` compiles FILE to
a job and prints what the built program named listing answers, at its own budget and with its own buffers. Status 2: a
mistake in the file, or it cannot be read, in one line.
"""

import sys

from built import printed
from evaluator import answer_text, listing, listing_text, run_job
from format import job_bytes
from notation import compile_file
from usage import help_first

USAGE = "usage: ask.py FILE | ask.py --figures FILE | ask.py --listing FILE | ask.py --job FILE"
STOPPED = 130           # as a shell tells of an interrupt


def of_job(path):
    with open(path, "rb") as file:
        return listing(file.read())


WAYS = {
    "": lambda path: listing_text(run_job(compile_file(path))),
    "--figures": lambda path: answer_text(run_job(compile_file(path))),
    "--listing": lambda path: printed("listing", job_bytes(compile_file(path))),
    "--job": of_job,
}


def main(arguments):
    way = arguments[0] if len(arguments) == 2 else ""
    if len(arguments) not in (1, 2) or way not in WAYS or arguments[-1].startswith("-"):
        sys.exit(USAGE)
    try:
        sys.stdout.write(WAYS[way](arguments[-1]))
        return 0
    except (OSError, UnicodeDecodeError) as mistake:
        print(f"{arguments[-1]}: {getattr(mistake, 'strerror', None) or mistake}", file=sys.stderr)
        return 2
    except KeyboardInterrupt:
        print("stopped", file=sys.stderr)
        return STOPPED


if __name__ == "__main__":
    help_first(__doc__)
    sys.exit(main(sys.argv[1:]))
