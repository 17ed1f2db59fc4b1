"""The command's arguments, and what each of ask, explain and check prints.

Rows and explanations go to standard output, everything else to standard error. Status 0: answered; 1: refused, by the
engine's number or by a mistake told with its line; 2: wrong use.
"""

import argparse
import os
import sys
import time

from text.format import many
from text.lines import NotationError
from text.parser import Parser

from . import VERSION
from .answering import Refused
from .checking import checked
from .explaining import explained
from .fitting import Fitted, Options
from .plans import by_file, pick, plan_text, run
from .printing import FORMATS
from .tables import SUFFIXES, Mistake, WrongUse, read_tables, text_of

COMMANDS = ("ask", "explain", "check")
ANSWERED, REFUSED, WRONG, STOPPED = 0, 1, 2, 130        # 130: as a shell tells of an interrupt
USAGE = """abe [ask] [OPTION ..] QUESTION.abe TABLE ..     answer a question
       abe explain QUESTION.abe TABLE ..               its blocks, plans and trials
       abe check QUESTION.abe [TABLE ..]               its mistakes and doubts
       abe [TABLE ..]                                  a prompt"""
EPILOG = """A TABLE is a CSV file (comma, semicolon or tab; the first line names the columns) and is called by the file's name
without .csv; NAME=FILE calls it NAME, NAME=- is standard input. front/README.md has the notation of questions.
Status 0: answered; 1: refused, and why on standard error; 2: wrong use."""


def arguments_of(given):
    parser = argparse.ArgumentParser(prog="abe", usage=USAGE, epilog=EPILOG, allow_abbrev=False,
                                     formatter_class=argparse.RawDescriptionHelpFormatter,
                                     description="Answers nested aggregate questions over tables, exactly.")
    parser.add_argument("files", nargs="*", metavar="FILE", help=argparse.SUPPRESS)
    parser.add_argument("--format", choices=FORMATS, default="table", help="how rows are printed (table)")
    parser.add_argument("--plan", choices=("auto", "file", "written"),
                        help="auto: the one with the fewest trials; written: the question's plan line (where it has one)")
    parser.add_argument("--time", action="store_true", help="tell the seconds taken")
    parser.add_argument("--skip-empty", action="store_true", help="leave out rows with an empty cell in a column used")
    parser.add_argument("--decimal-comma", action="store_true", help="cells have a comma before the decimals: 91,5")
    parser.add_argument("--text", action="append", default=[], metavar="COLUMN",
                        help="read a column (COLUMN or TABLE.COLUMN) as text, such as a number that is a name")
    parser.add_argument("--encoding", help="of the CSV files, where it is not UTF-8: cp1252, say")
    parser.add_argument("--version", action="version", version=f"abe {VERSION}")
    return parser.parse_intermixed_args(given)


def options_of(arguments):
    return Options(arguments.skip_empty, arguments.decimal_comma, tuple(arguments.text), arguments.encoding)


def command_of(files):
    """The command, the question's file and the tables' arguments; no question means the prompt."""
    command, files = (files[0], files[1:]) if files[:1] and files[0] in COMMANDS else (None, files)
    questions = [file for file in files if file.endswith(".abe")]
    is_tables = all(os.path.splitext(file)[1].lower() in SUFFIXES for file in files)
    if command is None and is_tables:
        return "prompt", None, files
    if not files:
        raise WrongUse(f"usage: {USAGE}")
    question = questions[0] if len(questions) == 1 else files[0]
    return command or "ask", question, [file for file in files if file is not question]


def fitted_question(text, tables, options):
    return Fitted(Parser(text, tables), options).fit()


def answer_of(question, way):
    """The run by the way of --plan: the written plan where there is one, else the best."""
    way = way or ("auto" if question.picks_plan else "written")
    if way == "auto":
        return pick(question)
    return run(by_file(question) if way == "file" or question.picks_plan else question)


def footer(question, answer, seconds=None):
    """Rows, trials and plan in words."""
    text = f"{many(len(answer.rows), 'row')}, {many(answer.trials, 'trial')}"
    if len(answer.plan) == 4 * len(question.blocks):
        text += f" by {plan_text(question, answer.plan)}"
    if answer.admitted is not None:
        tried = "the only plan" if answer.admitted == 1 else f"fewest of all {answer.admitted:,} plans" \
            if answer.tried == answer.admitted else f"fewest of {answer.tried} tried of {answer.admitted:,} plans"
        text += f" ({tried})"
    if seconds is not None:
        text += f"\n{seconds:.3f} s, of it {answer.seconds:.3f} s in {many(answer.tried, 'run')} of the engine"
    return text


def ask(text, tables, options, arguments, began=None):
    """Prints the rows, and tells the rest."""
    began = began or time.perf_counter()
    question = fitted_question(text, tables, options)
    answer = answer_of(question, arguments.plan)
    rows = [[column.value(*value) for column, value in zip(question.columns, row)] for row in answer.rows]
    sys.stdout.write(FORMATS[arguments.format](question.columns, rows))
    sys.stdout.flush()
    for note in question.notes:
        tell(note)
    tell(footer(question, answer, time.perf_counter() - began if arguments.time else None))
    return ANSWERED


def explain(text, tables, options, arguments):
    question = fitted_question(text, tables, options)
    print("\n".join(explained(question)))
    for note in question.notes:
        tell(note)
    return ANSWERED


def check(text, tables, options, arguments):
    mistakes, doubts = checked(text, tables, options)
    for mistake in mistakes:
        tell(mistake)
    for doubt in doubts:
        tell(f"doubt: {doubt}")
    tell(f"{many(len(mistakes), 'mistake')}" if mistakes else
         f"no mistakes, {many(len(doubts), 'doubt')}" if doubts else "no mistakes")
    return REFUSED if mistakes else ANSWERED


def tell(text):
    print(text, file=sys.stderr)


def main(given):
    arguments = arguments_of(given)
    began = time.perf_counter()
    try:
        command, question, files = command_of(arguments.files)
        if command == "prompt":
            from .prompt import Prompt      # readline only where it is used
            return Prompt(files, arguments).loop()
        options = options_of(arguments)
        text = text_of(question)
        tables = read_tables(files, arguments.encoding)
        if command == "ask":
            return ask(text, tables, options, arguments, began)
        return (explain if command == "explain" else check)(text, tables, options, arguments)
    except (Refused, Mistake, NotationError) as refused:
        tell(refused)
        return REFUSED
    except WrongUse as wrong:
        tell(wrong)
        return WRONG


def guarded(given):
    """The status of the command; a closed pipe and an interrupt end it quietly."""
    for stream in (sys.stdout, sys.stderr):
        stream.reconfigure(encoding="utf-8", errors="backslashreplace")
    try:
        status = main(given)
        sys.stdout.flush()
        return status
    except BrokenPipeError:     # whoever read the output has read enough
        os.dup2(os.open(os.devnull, os.O_WRONLY), sys.stdout.fileno())
        return ANSWERED
    except KeyboardInterrupt:
        tell("stopped")
        return STOPPED
