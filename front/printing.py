"""Rows as an aligned table. Of a ratio both the fraction and the decimal are shown, side by side; of an absent value, 0
over 0, a minus sign."""

PLACES = 6
GAP = "  "


def decimal_of(numerator, denominator):
    """The decimal of a ratio: in full where it ends, else to six places, with ~ before it."""
    places = next((n for n in range(1, 19) if 10**n % denominator == 0), None)
    about, places = ("", places) if places else ("~", PLACES)
    scaled, rest = divmod(abs(numerator) * 10**places, denominator)
    digits = str(scaled + (2 * rest >= denominator)).rjust(places + 1, "0")
    return f"{about}{'-' if numerator < 0 else ''}{digits[:-places]}.{digits[-places:]}"


def value_text(numerator, denominator):
    """A whole number, a fraction, or a minus sign for an absent value."""
    return {0: "-", 1: str(numerator)}.get(denominator, f"{numerator}/{denominator}")


def column_texts(title, values):
    """The lines of one column, title first, all of one width."""
    fractions = [value_text(n, d) for n, d in values]
    decimals = [decimal_of(n, d) if d > 1 else "" for n, d in values]
    width = max(map(len, fractions), default=0)
    cells = [fraction.rjust(width) for fraction in fractions]
    if any(decimals):
        before = max(text.find(".") for text in decimals)
        cells = [f"{cell}{GAP}{' ' * (before - text.find('.')) if text else ''}{text}"
                 for cell, text in zip(cells, decimals)]
        longest = max(map(len, cells))
        cells = [cell.ljust(longest) for cell in cells]
        title = title.ljust(longest)
    width = max(map(len, [title, *cells]))
    return [text.rjust(width) for text in [title, *cells]]


def plural(number, what):
    return f"{number:,} {what}{'' if number == 1 else 's'}"


def table_text(titles, rows, trials):
    """Titles, rows, and a last line with the number of rows and of trials."""
    columns = [column_texts(title, [row[place] for row in rows]) for place, title in enumerate(titles)]
    lines = [GAP.join(texts).rstrip() for texts in zip(*columns)]
    return "\n".join([*lines, f"{plural(len(rows), 'row')}, {plural(trials, 'trial')}"]) + "\n"
