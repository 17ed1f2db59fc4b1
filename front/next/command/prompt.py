"""The prompt: questions typed line by line, ended by an empty line, over the tables opened so far."""

import os
import shlex
import sys
from pathlib import Path

from text.format import many
from text.hints import close, shown
from text.lines import NotationError

from . import VERSION, main
from .answering import Refused
from .printing import FORMATS
from .tables import Mistake, WrongUse, read_tables, text_of

HISTORY = Path("~/.abe_history")
LONGEST_HISTORY = 2_000
HELP = """A question ends with an empty line. Commands:
  .open FILE ..       open tables; NAME=FILE gives a name
  .tables             the tables opened
  .schema [TABLE]     their columns, with what they hold
  .read FILE          ask the question in a file
  .check              mistakes and doubts of the last question
  .explain            blocks, plans and trials of the last question
  .format [NAME]      table, csv, json or markdown
  .time [on|off]      tell the seconds taken
  .show               the last question
  .help, .quit"""
EXAMPLE = """block top
  pans (pan = P)
  give P, ave(each.brix)
block each in top
  samples (sample = S, pan = ^P, brix = B)
  give S, B as brix"""


class Prompt:
    """What is open, and the last question."""

    def __init__(self, files, arguments):
        self.arguments, self.options = arguments, main.options_of(arguments)
        self.tables = read_tables(files, arguments.encoding)
        self.last = ""
        self.typed = sys.stdin.isatty()
        self.commands = {"open": self.open, "tables": self.list, "schema": self.schema, "read": self.read,
                         "check": self.check, "explain": self.explain, "format": self.format, "time": self.time,
                         "show": self.show, "help": self.help, "quit": self.quit, "exit": self.quit}

    # Reading.

    def loop(self):
        """Reads to the end of the input; status 1 if a question typed by a program was refused, else 0."""
        self.remember()
        if self.typed:
            print(f"abe {VERSION}. A question ends with an empty line; .help tells the commands, .quit ends.")
        statuses = []
        try:
            for text in self.entries():
                status = self.guarded(self.command if text.startswith(".") else self.ask, text)
                statuses.append(status)
        except SystemExit:
            pass
        return 0 if self.typed else max(statuses, default=0)

    def entries(self):
        """Commands, and questions of several lines."""
        lines = []
        while True:
            line = self.line("...> " if lines else "abe> ")
            if line is None or not line.strip():
                if lines:
                    yield "\n".join(lines)
                lines = []
                if line is None:
                    return
            elif line.strip().startswith(".") and not lines:
                yield line.strip()
            else:
                lines.append(line)

    def line(self, prompt):
        """The next line, None at the end."""
        try:
            return input(prompt) if self.typed else input()
        except EOFError:
            if self.typed:
                print()
            return None
        except KeyboardInterrupt:
            if not self.typed:
                raise
            print()
            return ""

    def remember(self):
        """The history of earlier lines, where the terminal has one."""
        if not self.typed:
            return
        try:
            import atexit
            import readline
            path = str(HISTORY.expanduser())
            if os.path.exists(path):
                readline.read_history_file(path)
            readline.set_history_length(LONGEST_HISTORY)
            readline.set_completer(self.completed)
            readline.set_completer_delims(" \t\n(),=^<>")
            readline.parse_and_bind("tab: complete")
            atexit.register(self.save_history, readline, path)
        except (ImportError, OSError, RuntimeError):
            pass        # a prompt without history is a prompt

    @staticmethod
    def save_history(readline, path):
        try:
            readline.write_history_file(path)
        except OSError:
            pass

    def completed(self, begun, state):
        """Names of tables and columns, and commands."""
        names = [f".{name}" for name in self.commands] + [shown(name) for table in self.tables.values()
                                                          for name in [table.name, *table.columns]]
        found = sorted({name for name in names if name.startswith(begun)})
        return found[state] if state < len(found) else None

    def guarded(self, act, text):
        """The status of a command or a question; mistakes are told and the prompt goes on."""
        try:
            return act(text) or 0
        except (Refused, Mistake, NotationError) as refused:
            main.tell(refused)
            return main.REFUSED
        except WrongUse as wrong:
            main.tell(wrong)
            return main.WRONG

    # Commands.

    def command(self, text):
        try:
            word, *rest = shlex.split(text[1:]) or [""]
        except ValueError as error:
            raise WrongUse(f"{text}: {error}") from error
        found = [name for name in self.commands if name == word] or [name for name in self.commands
                                                                    if word and name.startswith(word)]
        if len(found) != 1:
            raise WrongUse(f"no command .{word}" + (close(word, self.commands) or ": .help tells the commands"))
        return self.commands[found[0]](rest)

    def ask(self, text):
        self.last = text
        return main.ask(text, self.tables, self.options, self.arguments)

    def open(self, files):
        opened = read_tables(files, self.arguments.encoding)
        self.tables.update(opened)
        for table in opened.values():
            main.tell(f"{shown(table.name)}: {many(len(table.rows), 'row')}")

    def list(self, _):
        for table in self.tables.values():
            print(f"{shown(table.name)}: {many(len(table.rows), 'row')}")
        if not self.tables:
            main.tell("no tables: .open FILE.csv opens one")

    def schema(self, names):
        for name in names:
            if name not in self.tables:
                raise WrongUse(f"no table {name}" + close(name, self.tables))
        for table in self.tables.values():
            if not names or table.name in names:
                columns = [f"{shown(column)} {self.kind(table, place)}" for place, column in enumerate(table.columns)]
                print(f"{shown(table.name)} ({', '.join(columns)})")

    def kind(self, table, place):
        """What a column holds, in words."""
        cells = [row[place] for row in table.rows]
        numbers = [self.options.number(cell) for cell in cells if cell]
        words = "text" if None in numbers else "decimal" if any(number[1] for number in numbers) else "whole"
        return ("nothing" if not numbers else words) + (" with empty cells" if "" in cells else "")

    def read(self, files):
        if len(files) != 1:
            raise WrongUse(".read takes one file")
        return self.ask(text_of(files[0]))

    def asked(self):
        if not self.last:
            raise WrongUse("no question yet")
        return self.last, self.tables, self.options, self.arguments

    def check(self, _):
        return main.check(*self.asked())

    def explain(self, _):
        return main.explain(*self.asked())

    def show(self, _):
        print(self.asked()[0])

    def format(self, names):
        if names and names[0] not in FORMATS:
            raise WrongUse(f"no format {names[0]}: {', '.join(FORMATS)}")
        self.arguments.format = names[0] if names else self.arguments.format
        main.tell(f"format {self.arguments.format}")

    def time(self, words):
        if words not in ([], ["on"], ["off"]):
            raise WrongUse(".time on or .time off")
        self.arguments.time = not self.arguments.time if not words else words == ["on"]
        main.tell(f"time {'on' if self.arguments.time else 'off'}")

    def help(self, _):
        print(f"{HELP}\n\nA question, over tables pans and samples:\n\n{EXAMPLE}")

    def quit(self, _):
        raise SystemExit
