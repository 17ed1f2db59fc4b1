"""Rows as an aligned table, CSV, JSON or Markdown. In a table a ratio is shown twice: the exact fraction, and its decimal,
in full where it ends, else to six places with ~ before it. In CSV and JSON the decimal is a field of its own."""

import csv
import io
import json
import unicodedata
from decimal import Context, Decimal

from .question import NUMBER, RATIO, TEXT

PLACES = 6
MOST_PLACES = 40
SIGNIFICANT = Context(prec=15)
GAP = "  "


def places_of(value):
    """How many decimals a fraction has, None where they never end."""
    return next((n for n in range(MOST_PLACES) if 10**n % value.denominator == 0), None)


def decimal_of(value):
    """The decimal of a fraction: in full where it ends, else to six places, with ~ before it."""
    exact = places_of(value)
    places = PLACES if exact is None else exact
    scaled, rest = divmod(abs(value.numerator) * 10**places, value.denominator)
    digits = str(scaled + (2 * rest >= value.denominator)).rjust(places + 1, "0")
    sign = ("~" if exact is None else "") + ("-" if value < 0 else "")
    return f"{sign}{digits[:-places]}.{digits[-places:]}" if places else sign + digits


def number_of(value):
    """The decimal of a fraction for a program: in full where it ends, else to fifteen digits."""
    if places_of(value) is not None:
        return decimal_of(value)
    return format(SIGNIFICANT.divide(Decimal(value.numerator), Decimal(value.denominator)), "f")


def fraction_of(value):
    """A whole number, or numerator and denominator."""
    return str(value)


# A table for people.

def width_of(text):
    """The places that a text takes on a terminal."""
    return sum(0 if unicodedata.combining(sign) else 2 if unicodedata.east_asian_width(sign) in "WF" else 1
               for sign in text)


def padded(text, width, left):
    blanks = " " * (width - width_of(text))
    return text + blanks if left else blanks + text


def shown_text(text):
    """A text on one line."""
    return "".join(sign if sign.isprintable() else " " for sign in text)


def at_point(texts):
    """Texts of numbers with their points below each other."""
    before = max(len(text.split(".")[0]) for text in texts)
    lined = [" " * (before - len(text.split(".")[0])) + text for text in texts]
    width = max(map(len, lined))
    return [text.ljust(width) for text in lined]


def ratio_cells(values):
    """Fraction and decimal, side by side; the decimal only where it is no whole number."""
    fractions = ["-" if value is None else fraction_of(value) for value in values]
    width = max(map(len, fractions))
    decimals = ["" if value is None or value.denominator == 1 else decimal_of(value) for value in values]
    if not any(decimals):
        return [text.rjust(width) for text in fractions]
    return [(text.rjust(width) + GAP + decimal).rstrip() if decimal else text.rjust(width)
            for text, decimal in zip(fractions, lined_up(decimals))]


def lined_up(decimals):
    """Decimals with their points below each other; empty ones stay empty."""
    before = max(text.find(".") for text in decimals)
    return [" " * (before - text.find(".")) + text if text else "" for text in decimals]


def cells_of(column, values):
    """The cells of a column, and whether they stand at the left."""
    if not values:
        return [], column.kind == TEXT
    if column.kind == TEXT:
        return ["-" if value is None else shown_text(value) for value in values], True
    if column.kind == RATIO:
        cells = ratio_cells(values)
        return cells, any(len(cell.split()) > 1 for cell in cells)
    return at_point(["-" if value is None else decimal_of(value) for value in values]), False


def table_text(columns, rows):
    """Titles and rows, aligned."""
    texts = []
    for place, column in enumerate(columns):
        cells, left = cells_of(column, [row[place] for row in rows])
        width = max(map(width_of, [shown_text(column.title), *cells]))
        texts.append([padded(cell, width, left) for cell in [shown_text(column.title), *cells]])
    return "".join(GAP.join(cells).rstrip() + "\n" for cells in zip(*texts))


# Tables for programs.

def fields_of(columns):
    """The names of the fields, each once, the decimal of a ratio beside it: (name, column, whether it is the decimal)."""
    fields, taken = [], set()
    for place, column in enumerate(columns):
        for decimal in (False, True) if column.kind == RATIO else (False,):
            name = base = column.title + " decimal" * decimal
            number = 1
            while name in taken:
                number += 1
                name = f"{base} {number}"
            taken.add(name)
            fields.append((name, place, decimal))
    return fields


def field_text(column, value, decimal):
    """A field as text; an absent value is empty."""
    if value is None or column.kind == TEXT:
        return value or ""
    return fraction_of(value) if column.kind == RATIO and not decimal else number_of(value)


def csv_text(columns, rows):
    out, fields = io.StringIO(), fields_of(columns)
    writer = csv.writer(out, lineterminator="\n")
    writer.writerow([name for name, _, _ in fields])
    for row in rows:
        writer.writerow([field_text(columns[place], row[place], decimal) for _, place, decimal in fields])
    return out.getvalue()


def json_text(columns, rows):
    """A list of objects, one on a line; an absent value is null, a fraction a text."""
    def field(column, value, decimal):
        text = field_text(column, value, decimal)
        if value is None:
            return "null"
        return text if column.kind == NUMBER or decimal else json.dumps(text, ensure_ascii=False)

    fields = fields_of(columns)
    objects = ["{" + ", ".join(f"{json.dumps(name, ensure_ascii=False)}: {field(columns[place], row[place], decimal)}"
                               for name, place, decimal in fields) + "}" for row in rows]
    return "[" + ",\n ".join(objects) + "]\n"


def markdown_text(columns, rows):
    """A table of Markdown: a ratio as its fraction, with its decimal behind it."""
    def cell(column, value):
        if value is None:
            return "-"
        if column.kind == TEXT:
            return shown_text(value).replace("\\", "\\\\").replace("|", "\\|")
        ratio = column.kind == RATIO and value.denominator != 1
        return f"{fraction_of(value)} ({decimal_of(value)})" if ratio else decimal_of(value)

    titles = [shown_text(column.title).replace("|", "\\|") for column in columns]
    lines = [titles, [":---" if column.kind == TEXT else "---:" for column in columns]]
    lines += [[cell(column, value) for column, value in zip(columns, row)] for row in rows]
    return "".join(f"| {' | '.join(line)} |\n" for line in lines)


FORMATS = {"table": table_text, "csv": csv_text, "json": json_text, "markdown": markdown_text}
