"""Tables from CSV files, as people have them: comma, semicolon or tab, quotes, BOM, CRLF, any header. Cells stay texts here;
what they mean is settled with the question (fitting.py)."""

import csv
import io
import sys
from pathlib import Path

from text.format import many
from text.parser import Table

SUFFIXES = (".csv", ".tsv", ".tab", ".txt")
DELIMITERS = (",", ";", "\t")
LOOKED_AT = 20              # records that tell the delimiter
STANDARD_INPUT = "-"
MARKS = {b"\xff\xfe": "utf-16", b"\xfe\xff": "utf-16"}


class Mistake(Exception):
    """What is wrong in a question or a table, and where: the question is refused."""


class WrongUse(Exception):
    """What is wrong in the command's use: an unknown option, a file that cannot be read."""


def bytes_of(path):
    """The bytes of a file, or of standard input for -."""
    try:
        return sys.stdin.buffer.read() if path == STANDARD_INPUT else Path(path).read_bytes()
    except (OSError, ValueError) as error:
        raise WrongUse(f"{path}: {getattr(error, 'strerror', None) or error}") from error


def text_of(path, encoding=None):
    """The text of a file: UTF-8 with or without a mark, UTF-16 with one, or as the encoding says."""
    content, name = bytes_of(path), shown_path(path)
    try:
        return content.decode(encoding or MARKS.get(content[:2], "utf-8-sig"))
    except LookupError as error:
        raise WrongUse(f"no encoding {encoding}") from error
    except UnicodeDecodeError as error:
        line = content[:error.start].count(b"\n") + 1
        hint = "" if encoding else ": --encoding cp1252 reads a file of Windows"
        raise Mistake(f"{name}, line {line}: not text in {encoding or 'UTF-8'}{hint}") from error
    except UnicodeError as error:
        raise Mistake(f"{name}: not text in {encoding or 'UTF-16'} ({error})") from error


def shown_path(path):
    return "standard input" if path == STANDARD_INPUT else str(path)


def records_of(text, delimiter, limit=None):
    """The records of a CSV text with their lines: (line, [cell])."""
    reader = csv.reader(io.StringIO(text, newline=None), delimiter=delimiter, strict=True)
    records, line = [], 1
    for cells in reader:
        records.append((line, [cell.strip() for cell in cells]))
        line = reader.line_num + 1
        if limit is not None and len(records) >= limit:
            break
    return records


def delimiter_of(text):
    """The sign that parts the header and the first records into the same number of cells, most of all; else the one that
    stands in the header most often."""
    best, most = ",", 1
    for delimiter in DELIMITERS:
        try:
            lengths = {len(cells) for _, cells in records_of(text, delimiter, LOOKED_AT) if cells not in ([], [""])}
        except csv.Error:
            continue
        if len(lengths) == 1 and max(lengths) > most:
            best, most = delimiter, max(lengths)
    header = text.split("\n", 1)[0]
    return best if most > 1 else max(DELIMITERS, key=header.count)


def read_table(path, name, encoding=None):
    """The table in one CSV file."""
    source, text = shown_path(path), text_of(path, encoding)
    told, first = "", text.split("\n", 1)[0].strip()
    if len(first) == 5 and first.lower().startswith("sep="):        # a spreadsheet's word on its delimiter
        told, text = first[4], "\n" + text.split("\n", 1)[1] if "\n" in text else ""
    try:
        records = records_of(text, told or delimiter_of(text))
    except (csv.Error, TypeError, ValueError) as error:
        raise Mistake(f"{source}: {error}") from error
    return table_of(source, name, records)


def table_of(source, name, records):
    """The table of its records; a blank line is no row, but in a file of one column, where it is an empty cell."""
    def is_blank(record):
        return not any(record[1])

    while records and is_blank(records[-1]):
        records.pop()
    while records and is_blank(records[0]):
        records.pop(0)
    if not records:
        raise Mistake(f"{source}, line 1: a header line with the columns' names expected")
    _, columns = records[0]
    while len(columns) > 1 and not columns[-1]:
        columns.pop()
    table = Table(name, columns, source)
    for line, cells in records[1:]:
        if not any(cells) and len(columns) > 1:
            continue
        while len(cells) > len(columns) and not cells[-1]:
            cells.pop()
        if len(cells) < len(columns) and len(columns) == 1:
            cells = [""]
        if len(cells) != len(columns):
            raise Mistake(f"{source}, line {line}: {many(len(cells), 'cell')}, but the header has "
                          f"{many(len(columns), 'column')}")
        table.rows.append(cells)
        table.lines.append(line)
    return table


def named_file(argument):
    """The table's name and path in an argument: FILE, NAME=FILE, or - for standard input."""
    name, equals, path = argument.partition("=")
    if equals and name and path and not Path(argument).exists():
        return name, path
    if argument == STANDARD_INPUT:
        return "stdin", argument
    path = Path(argument)
    return (path.stem if path.suffix.lower() in SUFFIXES else path.name), argument


def read_tables(arguments, encoding=None):
    """The tables of all files, by name, in the order given."""
    tables = {}
    for argument in arguments:
        name, path = named_file(argument)
        if name in tables:
            raise WrongUse(f"{shown_path(path)}: a second table {name}: write NAME={path} to give it another name")
        tables[name] = read_table(path, name, encoding)
    if [path for _, path in map(named_file, arguments)].count(STANDARD_INPUT) > 1:
        raise WrongUse("standard input is one table only")
    return tables
