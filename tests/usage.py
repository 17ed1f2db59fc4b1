"""What the scripts have in common: each says its own head to `-h` or `--help`, at once; those that make the input of a
program write it to standard output, or with `--write` to the program's crate.
"""

import os
import sys


def help_first(text):
    """Prints the text and ends, where the first argument asks for help."""
    if sys.argv[1:2] in (["-h"], ["--help"]):
        try:
            print(text.strip(), flush=True)
        except BrokenPipeError:     # whoever reads it has read enough
            os.dup2(os.open(os.devnull, os.O_WRONLY), sys.stdout.fileno())
        sys.exit(0)


def give_input(text, path, content):
    """The whole of a script that makes the input of a program: its head, where that stands, and what gives the bytes."""
    help_first(text)
    if sys.argv[1:] == ["--write"]:
        path.write_bytes(content())
    elif sys.argv[1:]:
        script = os.path.basename(sys.argv[0])
        sys.exit(f"usage: {script} | {script} --write")
    else:
        sys.stdout.buffer.write(content())
