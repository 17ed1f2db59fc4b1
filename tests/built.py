"""The programs named listing and budgeted and the archive for C and Rust: proved and built where they are not there yet or
are older than the sources, and what the programs print.

    python3 tests/built.py NAME ..      proves and builds these, where need be, and prints where they stand

A program NAME stands in crates/NAME/out: `rt ci` and `rt run` put it there. The archive is crates/capi/out/libcapi.a, of
`rt lib`. `rt ci` proves its crate too, but makes no archive; behind it the archive is built over the libraries that it left.
"""

import re
import shutil
import subprocess
import sys
import time
from functools import cache
from pathlib import Path

from usage import help_first

TOP = Path(__file__).resolve().parent.parent
CRATES = TOP / "crates"
ARCHIVE = "capi"
LONGEST_SECONDS = 600
AT_CRATE = re.compile(r"crate (\w+): modules ")
PROVED = "logic=proved "
NO_TOOLCHAIN = "the command `rt` is not there: what is tested is proved and built by the Rattle toolchain"


@cache
def needs():
    """For each crate of this repository the others of it that its line in crates.txt names."""
    lines = (line.split("#")[0] for line in (TOP / "crates.txt").read_text().splitlines())
    found = {crate.split()[0]: needed.split() for crate, colon, needed in (line.partition(":") for line in lines) if colon}
    return {crate: [each for each in needed if each in found] for crate, needed in found.items()}


@cache
def crates_of(name):
    """The crates of this repository that a program or the archive is built from, itself the last."""
    below = [each for needed in needs()[name] for each in crates_of(needed)]
    return [*dict.fromkeys(below), name]


def place_of(name):
    return CRATES / name / "out" / (f"lib{name}.a" if name == ARCHIVE else name)


def newest_source(name):
    """When the newest file was written that a program or the archive is built from."""
    folders = [CRATES / crate / part for crate in crates_of(name) for part in ("src", "specs", "proofs")]
    files = [TOP / "crates.txt", *(file for folder in folders for file in folder.rglob("*") if file.is_file())]
    return max(file.stat().st_mtime for file in files)


def clock(seconds):
    return f"{int(seconds) // 60}:{int(seconds) % 60:02}"


def build(name):
    """Proves and builds a program or the archive, with a line for each crate as it is proved. `rt run` runs a program too."""
    command, given = ("rt lib", "/dev/null") if name == ARCHIVE else ("rt run", CRATES / name / "stdin")
    print(f"proving and building {name} by `{command}`, once: {len(crates_of(name))} crates, less those that another copy on "
          "this machine has proved", file=sys.stderr)
    begun, crate, said = time.monotonic(), "", []
    with open(given, "rb") as stdin, subprocess.Popen(command.split(), cwd=CRATES / name, stdin=stdin, text=True,
                                                      stdout=subprocess.PIPE, stderr=subprocess.STDOUT) as work:
        for line in work.stdout:
            said.append(line)
            crate = found[1] if (found := AT_CRATE.match(line)) else crate
            if line.startswith(PROVED):
                print(f"  {clock(time.monotonic() - begun)}  {crate} proved", file=sys.stderr, flush=True)
    if work.returncode != 0 or not place_of(name).exists():
        sys.exit(f"`{command}` in crates/{name} failed:\n" + "".join(said[-20:]))


def build_over_ci(newest):
    """Whether the archive could be built over the libraries of a run of `rt ci`: as for a program of its own, `rattle build`
    proves the crate capi over them. `rt lib` takes none of them, and proves each library again."""
    below = {crate: CRATES / crate / "out" / "rlib" for crate in crates_of(ARCHIVE)[:-1]}
    if not all((rlib / f"{crate}.rlib" / "format").exists() and (rlib / f"{crate}.rlib").stat().st_mtime >= newest
               and not (rlib / "stamp").exists() for crate, rlib in below.items()):
        return False
    kit = Path(shutil.which("rt") or "rt").resolve().parent.parent
    words = [kit / "bin/rattle", "build", "--crate-name", ARCHIVE, "--crate-type", "staticlib", "src/lib.rt", "--jobs", "1",
             "--antt-project", kit / "rattle/logic/antt-project.json", "--logic-built", kit / "logic_built",
             "--extern", f"std={kit}/rlibs/std.rlib", "-L", f"dependency={kit}/rlibs", "--links", f"{ARCHIVE}=",
             "--toolchain", kit / "toolchain", "--backend", "llvm", "-o", place_of(ARCHIVE)]
    for crate, rlib in below.items():
        words += ["--extern", f"{crate}={rlib}/{crate}.rlib"] if crate in needs()[ARCHIVE] else []
        words += ["-L", f"dependency={rlib}"]
    place_of(ARCHIVE).parent.mkdir(exist_ok=True)
    done = subprocess.run(words, cwd=CRATES / ARCHIVE, stdin=subprocess.DEVNULL, stdout=subprocess.PIPE,
                          stderr=subprocess.STDOUT, text=True)
    return done.returncode == 0 and "logic=proved" in done.stdout


@cache
def program(name):
    """The path of a built program or of the archive, which is proved and built first where it is not there or is too old."""
    path, newest = place_of(name), newest_source(name)
    if not path.exists() or path.stat().st_mtime < newest:
        if not (name == ARCHIVE and build_over_ci(newest)):
            try:
                build(name)
            except FileNotFoundError:
                sys.exit(NO_TOOLCHAIN)
        path.touch()            # what is proved already is not linked again
    return path


def printed(name, given):
    """What a built program prints for these bytes."""
    done = subprocess.run([program(name)], input=given, capture_output=True, timeout=LONGEST_SECONDS)
    if done.returncode != 0 or done.stderr:
        return f"status {done.returncode} {done.stderr.decode()!r}\n{done.stdout.decode(errors='replace')}"
    return done.stdout.decode(errors="replace")


if __name__ == "__main__":
    help_first(__doc__)
    for each in sys.argv[1:]:
        print(program(each).relative_to(TOP))
