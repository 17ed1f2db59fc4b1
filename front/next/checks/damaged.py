"""Damaged questions and tables, fed to the command: no input may bring a traceback.

`damaged(count, seed)` makes so many runs. A run takes a question of front/next/examples or tests/questions with its tables,
damages one or more of the files, and gives them to ask, explain, check or the prompt, in this process. Most damages are
small, so that many files stay nearly right. What must hold of every run:

- no exception but SystemExit, and status 0, 1 or 2;
- under status 1 and 2 words on standard error and nothing on standard output (the prompt may have answered before);
- under status 0 of ask as many rows as the last line tells, in the format asked for;
- under status 0 of explain its plans, and of check no word on standard output;
- a refusal by a number from 4 on names its line.

A run depends on seed and number alone. `python3 front/next/checks/damaged.py [COUNT SEED]` prints the counts and the failures,
`python3 front/next/checks/damaged.py run SEED NUMBER FOLDER` leaves the files of one run in a new folder and says how it is asked.
"""

import contextlib
import csv
import io
import json
import random
import re
import shlex
import sys
import tempfile
import time
import traceback
from collections import Counter
from dataclasses import dataclass, field
from pathlib import Path
from typing import NamedTuple

FRONT = Path(__file__).resolve().parent.parent
if __name__ == "__main__":
    sys.dont_write_bytecode = True
    sys.path.insert(0, str(FRONT))

from checks.by_sql import asked                     # noqa: E402
from command import main                            # noqa: E402
import built                                        # noqa: E402, found by command

EXAMPLES, QUESTIONS = FRONT / "examples", FRONT.parent.parent / "tests" / "questions"
COUNT, SEED = 2_000, 1
LONGEST_SECONDS = 10            # of a run, and of one call of the program
BUDGET = 5_000                  # of most questions, so that none takes long
LARGEST_FILE = 6_000            # bytes of a question that is taken
FORMATS = ("table", "csv", "json", "markdown")
FOOTER = re.compile(r"^([\d,]+) rows?, [\d,]+ trials?", re.MULTILINE)
NUMBERED = re.compile(r"^no (\d+): (.*)$", re.MULTILINE)
WITHOUT_LINE = ("1", "2", "3", "12")        # 12 by the usual budget, which no line gives
PIPE = re.compile(r"(?<!\\)(?:\\\\)*\|")

VOCABULARY = """block table where give plan budget lend in as and hex file index merging merge count sum min max ave avg mean
top each pans samples P B S ^P ^S ^T _ = == != <> < <= =< > >= => ≠ ≤ ≥ ( ) , . ; : ^ - + * # " ' “ ” "" '' "a" 'b' 0 1 -1 - 5
+3 1.5 -0.25 .5 5. 007 1e3 1000000 1000001 9999999999999999999 0.0000001 count(each) sum(each) ave(each.brix) max(each.0)
count(*) ave(brix,each) sum(top) select from having were gives group order by or not exists between like is equals limit
block\ttop block\u00a0x result sets files indexes stdin each.9 each."brix" "Sample No" Brüx budget count""".split(" ")
VOCABULARY = [word for part in VOCABULARY for word in (part.split("\n") if "\n" in part else [part])]
ODD_TEXTS = ["\x00", "\ufeff", "\u200b", "\u2028", "\u0085", "\x0b", "\x0c", "\x1b[2J", "e\u0301", "\u0661\u0662", "²", "½", "Ⅷ",
             "\u202e", "\U0001f9ea", "ǅ", "ß", "İ", "\xa0", "\uffff", "\U0010ffff", "１２", "−5", "“", "”", "‘a’", "ａｂｃ", "中文"]
ODD_BYTES = [b"\xff", b"\xfe\xff", b"\xff\xfe", b"\xc3", b"\xed\xa0\x80", b"\xf8\x88\x80\x80\x80", b"\x80", b"\x00", b"\x1a", b"\r"]
ODD_CELLS = ["", " ", "-", "+", ".", "-0", "+5", "5.", ".5", "-.5", "007", "1e3", "1,000", "1 000", "1_000", "0x10", "NaN", "inf", "91,5",
             "1000000", "1000001", "-1000001", "0.000001", "1000000.0", "99999.99", "9" * 30, "0." + "0" * 30 + "1", "1" * 300,
             "1" * 500, "1" * 5000, "1" * 300 + ".5", "x" * 3000, "é" * 200, '"', '""', "a\nb", "'", "=1+1", "null", "-1.50", "٣"]
HEADERS = ["count", "budget", "block", "give", "where", "table", "plan", "in", "as", "and", "_", "", "Sample No", "Brüx", "a.b", "a=b",
           "^P", "1", "0", '"', "a\nb", "tank", "sample", "pan", "x" * 2000]
ENCODINGS = ["utf-8", "cp1252", "latin-1", "utf-16", "utf-7", "unicode_escape", "ascii", "rot13", "hex", "idna", "undefined", "none"]
OPTIONS = [["--time"], ["--skip-empty"], ["--decimal-comma"], ["--text", "tank"], ["--text", "samples.brix"], ["--text", ""],
           ["--plan", "auto"], ["--plan", "file"], ["--plan", "written"]]
WRONG_OPTIONS = [["--format", "xml"], ["--plan", "best"], ["--formats", "csv"], ["-x"], ["--text"], ["--version"], ["--help"], ["ask"],
                 ["check"], ["--"], [""], ["nothere.csv"], ["."], ["a=b=c"], ["=x.csv"], ["x="], ["-"], ["x=-"], ["nothere.abe"]]
COMMANDS = [".tables", ".schema", ".schema pans", ".explain", ".check", ".time", ".time on", ".format json", ".format xml", ".show",
            ".help", ".read q.abe", ".read", ".open", ".open nothere.csv", ".quit", ".", ".x", ". tables", '.open "', "..", ".t",
            ".schema\x00", ".read \x00", ".open .", ".EXPLAIN", ".format", ".exit now"]


class Source(NamedTuple):
    """A question that is right, and its tables."""
    question: bytes
    tables: list            # (argument, file name, content); the argument - is standard input
    options: list


@dataclass
class Case:
    """A run: its files, arguments and standard input."""
    command: str
    arguments: list
    files: dict
    given: bytes = b""
    format: str = "table"


@dataclass
class Failure:
    """What went wrong in a run, and how it is repeated."""
    number: int
    seed: int
    arguments: list
    what: str
    detail: str = field(default="", repr=False)

    def __str__(self):
        return (f"run {self.number}: abe {shlex.join(self.arguments)}: {self.what}\n  repeat: python3 front/next/checks/damaged.py run "
                f"{self.seed} {self.number} FOLDER\n" + "".join(f"    {line}\n" for line in self.detail.splitlines()[-12:]))


# What is damaged.

def example_source(path):
    tables, options, given = asked(path)
    files = []
    for table in tables:
        name, _, file = table.rpartition("=")
        content = (given if file == "-" else path.parent / file).read_bytes()
        files.append((table, given.name if file == "-" else file, content))
    return Source(path.read_bytes(), files, options)


def written_source(path):
    """A question with its tables in it, and the same with its tables in files."""
    text = path.read_text(encoding="utf-8")
    lines, tables, rest = text.splitlines(), [], []
    for line in lines:
        found = re.match(r"table (\w+) \((.*)\)\s*(#.*)?$", line)
        if found:
            tables.append((f"{found[1]}.csv", [found[2].replace(" ", "")]))
        elif tables and re.match(r"\s+[-\d]", line):
            tables[-1][1].append(",".join(line.split("#")[0].split()))
        else:
            rest.append(line)
    apart = Source("\n".join([*rest, ""]).encode(),
                   [(name, name, "\n".join([*cells, ""]).encode()) for name, cells in tables], [])
    return [Source(text.encode(), [], []), apart]


def sources():
    """The sources: examples first, as many again of the questions."""
    examples = [example_source(path) for path in sorted(EXAMPLES.rglob("*.abe"))]
    questions = [source for path in sorted(QUESTIONS.glob("*.abe")) if path.stat().st_size < LARGEST_FILE
                 for source in written_source(path)]
    return examples, questions


# Damages. Each takes a source of choices and bytes, and gives bytes.

def spot(draw, content):
    return draw.randrange(len(content) + 1)


def span(draw, content, most=40):
    start = spot(draw, content)
    return start, min(len(content), start + draw.randint(1, most))


def flipped(draw, content):
    at = spot(draw, content)
    return content[:at] + bytes([draw.randrange(256)]) + content[at + 1:]


def cut(draw, content):
    return content[:spot(draw, content)]


def beheaded(draw, content):
    return content[span(draw, content, 10)[1]:] if draw.random() < 0.3 else content[draw.randint(1, 30):]


def without(draw, content):
    start, end = span(draw, content, draw.choice([1, 1, 4, 40]))
    return content[:start] + content[end:]


def doubled(draw, content):
    start, end = span(draw, content)
    return content[:end] + content[start:end] + content[end:]


def inserted(choices, most=1):
    def insert(draw, content):
        for _ in range(draw.randint(1, most)):
            at, chosen = spot(draw, content), draw.choice(choices)
            content = content[:at] + (chosen if isinstance(chosen, bytes) else chosen.encode()) + content[at:]
        return content
    return insert


def word_inserted(draw, content):
    """A token between two others."""
    places = [found.start() for found in re.finditer(rb"\s|[(),=]", content)] or [0]
    at = draw.choice(places)
    return content[:at] + b" " + draw.choice(VOCABULARY).encode() + b" " + content[at:]


def word_replaced(draw, content, choices=None):
    words = list(re.finditer(rb"[\w\xc3\x80-\xbf]+|[^\w\s]+", content))
    if not words:
        return content
    found, chosen = draw.choice(words), draw.choice(choices or VOCABULARY)
    return content[:found.start()] + (chosen if isinstance(chosen, bytes) else chosen.encode()) + content[found.end():]


def word_cased(draw, content):
    words = list(re.finditer(rb"[A-Za-z]+", content))
    if not words:
        return content
    found = draw.choice(words)
    return content[:found.start()] + found[0].swapcase() + content[found.end():]


def word_misspelt(draw, content):
    words = list(re.finditer(rb"[A-Za-z]{3,}", content))
    if not words:
        return content
    found = draw.choice(words)
    at = found.start() + draw.randrange(len(found[0]) - 1)
    return content[:at] + content[at + 1:at + 2] + content[at:at + 1] + content[at + 2:]


def sign_dropped(draw, content):
    """A sign of the notation left out."""
    signs = [found.start() for found in re.finditer(rb"[\^(),.=\"<>]", content)]
    if not signs:
        return content
    at = draw.choice(signs)
    return content[:at] + content[at + 1:]


def on_lines(change):
    """A damage of the list of lines."""
    def damage(draw, content):
        lines = content.split(b"\n")
        return b"\n".join(change(draw, lines))
    return damage


def swapped(draw, lines):
    one, other = draw.randrange(len(lines)), draw.randrange(len(lines))
    lines[one], lines[other] = lines[other], lines[one]
    return lines


def deleted(draw, lines):
    at = draw.randrange(len(lines))
    return lines[:at] + lines[at + 1:]


def repeated(draw, lines):
    at = draw.randrange(len(lines))
    return lines[:at] + lines[at:at + 1] * draw.choice([2, 2, 3, 300]) + lines[at + 1:]


def parted(draw, lines):
    """A line over two, or two lines in one."""
    at = draw.randrange(len(lines))
    words = lines[at].split(b" ")
    if draw.random() < 0.5 and len(words) > 1:
        place = draw.randrange(1, len(words))
        return lines[:at] + [b" ".join(words[:place]), b" ".join(words[place:])] + lines[at + 1:]
    return lines[:at] + [b" ".join(lines[at:at + 2])] + lines[at + 2:]


def cell_changed(draw, lines):
    """A cell of a CSV file, by whichever sign parts it."""
    at = draw.randrange(len(lines))
    parts = re.split(rb"([,;\t])", lines[at])
    parts[draw.randrange(0, len(parts), 2)] = draw.choice(ODD_CELLS).encode()
    return lines[:at] + [b"".join(parts)] + lines[at + 1:]


def header_changed(draw, lines):
    parts = re.split(rb"([,;\t])", lines[0])
    parts[draw.randrange(0, len(parts), 2)] = draw.choice([name.encode() for name in HEADERS] + parts[::2])
    return [b"".join(parts)] + lines[1:]


def cell_more(draw, lines):
    at = draw.randrange(len(lines))
    return lines[:at] + [lines[at] + draw.choice([b",", b";", b"\t", b",,", b",1", b" "])] + lines[at + 1:]


def delimiter_changed(draw, content):
    old, new = draw.choice([b",", b";", b"\t", b"."]), draw.choice([b",", b";", b"\t", b"|", b" ", b",,"])
    return content.replace(old, new, draw.choice([1, 3, -1]))


def recoded(draw, content):
    """The same text in other bytes."""
    text = content.decode("utf-8", errors="replace")
    return draw.choice([
        lambda: text.encode("utf-16"), lambda: b"\xef\xbb\xbf" + content, lambda: content.replace(b"\n", b"\r\n"),
        lambda: content.replace(b"\n", b"\r"), lambda: text.encode("cp1252", errors="replace"), lambda: b"sep=;\n" + content,
        lambda: b"\n\n" + content, lambda: content.rstrip(b"\n"), lambda: content + b"\n\n \n", lambda: b"",
        lambda: text.upper().encode(), lambda: text.casefold().encode(), lambda: b"sep=", lambda: text.encode("utf-16-le")])()


def quoted(draw, content):
    """A quote opened, or around a word."""
    mark = draw.choice([b'"', b"'", "“".encode()])
    if draw.random() < 0.5:
        at = spot(draw, content)
        return content[:at] + mark + content[at:]
    words = [found[0] for found in re.finditer(rb"\w+", content)] or [b""]
    return word_replaced(draw, content, [mark + word + mark for word in words])


BYTES = [flipped, cut, beheaded, without, without, doubled, inserted(ODD_BYTES), inserted(ODD_TEXTS, 3), recoded]
LINES = [on_lines(swapped), on_lines(deleted), on_lines(repeated), on_lines(parted), on_lines(parted)]
IN_QUESTION = BYTES + 2 * LINES + 3 * [word_inserted, word_replaced, sign_dropped] + [
    word_cased, word_misspelt, word_misspelt, quoted, inserted(VOCABULARY, 3), inserted(ODD_CELLS)]
IN_TABLE = BYTES + LINES + 4 * [on_lines(cell_changed)] + 2 * [on_lines(header_changed), on_lines(cell_more)] + [
    quoted, delimiter_changed, delimiter_changed, inserted(ODD_CELLS), inserted(ODD_CELLS + HEADERS, 3)]


def exchanged(draw, one, other):
    """A word of one file in the place of a word of another."""
    words = re.findall(rb"\w+", other)
    return word_replaced(draw, one, words or VOCABULARY)


# Runs.

def damaged_files(draw, source):
    """Question and tables, one or more of them damaged."""
    question, tables = source.question, [content for _, _, content in source.tables]
    for _ in range(draw.choice([0, 1, 1, 1, 1, 1, 2, 2, 3, 6])):
        place = draw.randrange(-2, len(tables)) if tables else -1
        kinds = IN_QUESTION if place < 0 else IN_TABLE
        content = question if place < 0 else tables[place]
        if tables and draw.random() < 0.08:
            content = exchanged(draw, content, draw.choice([question, *tables]))
        else:
            content = draw.choice(kinds)(draw, content)
        if place < 0:
            question = content
        else:
            tables[place] = content
    return question, tables


def typed(draw, question):
    """What is typed at the prompt: questions and commands."""
    question = question.replace(b"\n\n", b"\n")
    parts = [draw.choice([question, question, draw.choice(COMMANDS).encode()]) + draw.choice([b"\n\n", b"\n\n", b"\n", b""])
             for _ in range(draw.randint(1, 5))]
    return b"".join(parts)


def case(seed, number, all_sources):
    """The run of this number."""
    draw = random.Random(f"damaged {seed} {number}")
    source = draw.choice(draw.choice(all_sources))
    question, tables = damaged_files(draw, source)
    if draw.random() < 0.9:
        question += f"\nbudget {BUDGET}\n".encode()
    command = draw.choice(["ask"] * 5 + ["explain"] * 2 + ["check"] * 2 + ["prompt"])
    files, names, given = {"q.abe": question}, [], b""
    for (argument, file, _), content in zip(source.tables, tables):
        names.append(argument)
        if argument.rpartition("=")[2] == "-":
            given = content
        else:
            files[file] = content
    if command == "prompt":
        given, names = typed(draw, question), [name for name in names if not name.endswith("-")]
        is_words = all(name.rpartition(".")[2].lower() in ("csv", "tsv") for name in names)
        command, names = ("prompt", names) if is_words else ("check", ["q.abe", *names])
    else:
        names.insert(0, "q.abe")
    chosen = draw.choice(FORMATS)
    options = [*source.options, *(["--format", chosen] if chosen != "table" or draw.random() < 0.5 else [])]
    for more, share in ((OPTIONS, 0.3), (WRONG_OPTIONS, 0.03), ([["--encoding", name] for name in ENCODINGS], 0.04)):
        if draw.random() < share:
            options += draw.choice(more)
    arguments = [*([command] if command not in ("prompt", "ask") or (command == "ask" and draw.random() < 0.7) else []),
                 *names]
    if draw.random() < 0.03 and names:
        arguments.remove(draw.choice(names))
    at = draw.randrange(len(arguments) + 1)
    arguments = options + arguments if draw.random() < 0.8 else arguments[:at] + options + arguments[at:]
    return Case(command, arguments, files, given, chosen)


def stream(content=b""):
    """A stream as Python has them: text over bytes."""
    return io.TextIOWrapper(io.BytesIO(content), encoding="utf-8", errors="strict")


def printed(out):
    out.flush()
    return out.buffer.getvalue().decode("utf-8")


def run(arguments, given):
    """Status, what was printed and told, and an exception's words."""
    before, out, err = (sys.stdin, sys.stdout, sys.stderr), stream(), stream()
    for each in (out, err):
        each.reconfigure(errors="backslashreplace")         # as the command has them
    sys.stdin, sys.stdout, sys.stderr = stream(given), out, err
    status, broken = None, ""
    try:
        status = main.main(list(arguments))
    except SystemExit as end:
        status = end.code if isinstance(end.code, int) else 0 if end.code is None else f"exit {end.code!r}"
    except Exception:
        broken = traceback.format_exc()
    finally:
        sys.stdin, sys.stdout, sys.stderr = before
    return status, printed(out), printed(err), broken


def rows_printed(kind, out):
    """The number of rows in a format; ValueError where it is not of that format."""
    if kind == "json":
        rows = json.loads(out)
        if not isinstance(rows, list) or len({tuple(row) for row in rows}) > 1:
            raise ValueError("the rows have not the same fields")
        return len(rows)
    if kind == "csv":
        csv.field_size_limit(10**9)
        rows = list(csv.reader(io.StringIO(out, newline=""), strict=True))
        if len({len(row) for row in rows}) != 1:
            raise ValueError("the rows have not the same width")
        return len(rows) - 1
    lines = out.removesuffix("\n").split("\n")
    if kind == "markdown":
        if len({len(PIPE.findall(line)) for line in lines}) != 1 or not all(line[:2] == "| " and line[-2:] == " |"
                                                                             for line in lines):
            raise ValueError("the rows have not the same cells")
        return len(lines) - 2
    return len(lines) - 1


def fault_of(asked_case, status, out, err):
    """What does not hold of a run, or None."""
    if status not in (0, 1, 2):
        return f"status {status}"
    if "Traceback" in err + out:
        return "a traceback is told"
    if status != 0 and not err.strip():
        return "nothing on standard error"
    for number, words in NUMBERED.findall(err):
        if number not in WITHOUT_LINE and not re.search(r"line \d", words):
            return f"number {number} without its line"
    if "q.abe" not in asked_case.arguments or {"--version", "--help"} & set(asked_case.arguments):
        return None             # the prompt, which may have answered before; or words on the command itself
    if status != 0:
        return "a refusal with words on standard output" if out else None
    return answer_fault(asked_case, out, err)


def answer_fault(asked_case, out, err):
    """What does not hold of a run under status 0, or None."""
    command = next((word for word in asked_case.arguments if word in ("ask", "explain", "check")), "ask")
    if command == "check":
        return "check prints on standard output" if out else None if "no mistakes" in err else "check tells nothing"
    if command == "explain":
        return None if "plans, fewest trials first:\n" in out else "explain without plans"
    found = FOOTER.findall(err)
    if not found:
        return "the number of rows is not told"
    try:
        rows = rows_printed(asked_case.format, out)
    except (ValueError, csv.Error) as error:
        return f"no {asked_case.format}: {error}"
    return None if rows == int(found[-1].replace(",", "")) else f"{rows} rows in {asked_case.format}, {found[-1]} told"


def put(asked_case, folder):
    for name, content in asked_case.files.items():
        (Path(folder) / name).write_bytes(content)


def one(seed, number, all_sources):
    """The status of one run, and its failure or None."""
    asked_case = case(seed, number, all_sources)
    with tempfile.TemporaryDirectory() as folder, contextlib.chdir(folder):
        put(asked_case, folder)
        began = time.perf_counter()
        status, out, err, broken = run(asked_case.arguments, asked_case.given)
        seconds = time.perf_counter() - began
    what = broken.splitlines()[-1] if broken else fault_of(asked_case, status, out, err)
    if what is None and seconds > LONGEST_SECONDS:
        what = f"{seconds:.0f} seconds"
    name = asked_case.command
    return (name, status), what and Failure(number, seed, asked_case.arguments, what, broken or err)


def damaged(count=COUNT, seed=SEED):
    """Makes runs 0 to count - 1; gives their number, how often each status was met by command, and the failures."""
    all_sources, met, failures = sources(), Counter(), []
    longest, built.LONGEST_SECONDS = built.LONGEST_SECONDS, LONGEST_SECONDS
    try:
        for number in range(count):
            status, failure = one(seed, number, all_sources)
            met[status] += 1
            failures += [failure] if failure else []
    finally:
        built.LONGEST_SECONDS = longest
    return count, met, failures


def leave(seed, number, folder):
    """Puts the files of one run into a new folder, and says how it is asked there."""
    asked_case = case(seed, number, sources())
    Path(folder).mkdir(parents=True)
    put(asked_case, folder)
    (Path(folder) / "standard-input").write_bytes(asked_case.given)
    print(f"abe {shlex.join(asked_case.arguments)} < standard-input")


def by_hand(arguments):
    if len(arguments) == 4 and arguments[0] == "run":
        return leave(int(arguments[1]), int(arguments[2]), arguments[3])
    began = time.perf_counter()
    runs, met, failures = damaged(*map(int, arguments))
    for failure in failures:
        print(failure)
    for (command, status), times in sorted(met.items(), key=str):
        print(f"{command} with status {status}: {times}")
    print(f"{runs} runs, {len(failures)} failures, {time.perf_counter() - began:.1f} s")
    return 1 if failures else 0


if __name__ == "__main__":
    sys.exit(by_hand(sys.argv[1:]))
