"""What the tests share: a line for each check, and the command run in this process or as a program of its own."""

import contextlib
import io
import os
import subprocess
import sys
import tempfile
from pathlib import Path

FRONT = Path(__file__).resolve().parent.parent
TESTS = FRONT.parent.parent / "tests"
EXAMPLES = FRONT / "examples"

from command.main import main       # noqa: E402

FAILED = []


def check(name, passed, detail=""):
    print(f"{'ok  ' if passed else 'FAIL'} {name}" + (f": {detail}" if detail else ""))
    if not passed:
        FAILED.append(name)


class Given(io.StringIO):
    """A standard input that also has bytes."""

    def __init__(self, content):
        super().__init__(content.decode("utf-8", "replace"))
        self.buffer = io.BytesIO(content)


def abe(*arguments, folder=FRONT, given=b""):
    """Status, output and errors of the command, run in this process in a folder."""
    out, err, before, standard_input = io.StringIO(), io.StringIO(), os.getcwd(), sys.stdin
    os.chdir(folder)
    sys.stdin = Given(given)
    try:
        with contextlib.redirect_stdout(out), contextlib.redirect_stderr(err):
            try:
                status = main([str(argument) for argument in arguments])
            except SystemExit as end:
                status = end.code
    finally:
        sys.stdin = standard_input
        os.chdir(before)
    return status, out.getvalue(), err.getvalue()


def program(*arguments, folder=FRONT, given=b""):
    """The same as a program of its own."""
    done = subprocess.run([sys.executable, str(FRONT / "abe"), *map(str, arguments)], cwd=folder, input=given,
                          capture_output=True, timeout=600)
    return done.returncode, done.stdout.decode(), done.stderr.decode()


@contextlib.contextmanager
def files(contents):
    """A folder that has these files."""
    with tempfile.TemporaryDirectory() as folder:
        for name, content in contents.items():
            (Path(folder) / name).write_bytes(content if isinstance(content, bytes) else content.encode())
        yield folder
